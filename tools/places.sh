#!/bin/sh
# Lists where the code may read like an older Rattle, for one of the points of docs/DESIGN-PASS.md:
# tools/places.sh POINT, at the top of the repository. Each line is a place to read, and no verdict.
src() { grep -rnE "$1" crates/*/src --include=*.rt; }

case "$1" in
1) src '^    (Nothing|Neither|Refused|Stuck|Unlike|Done)(,|\(|$)|^    (Value|Stop)\(|-> (Result<\()?\(?bool|\(bool, |some: bool|-> u8$|ending: u8|match (r\.kind|a) \{' ;;
2) grep -rhoE '\bfn [a-z_]+' crates/*/src --include=*.rt | sort | uniq -cd ;;
3) src '\bwhile |\bfor [a-z_]+ in .*\.\.|n - 1[,)]|arms?\(card, next|(cases|arms)\(tokens, next|if [a-z_.() ]+ (<|>=|>) [a-z.]*len(\(\))? |if (at|place|i) < ' | grep -v 'ensures\|requires' ;;
4) src '^impl.* (PartialEq|Eq|PartialOrd|Ord|Clone|Copy|From<.*>|TryFrom<.*>|fmt::Display|Default) for |fn show|None => None|Ok\(\(\)\) => Ok\(\(\)\)|Err\((f|e)\) => Err|Some\([a-z]+\) => Ok\(|None => Err\(|fn small' ;;
5) grep -rhoE '^ *(requires|ensures)( [a-z_]+)? \{.*\}' crates/*/src --include=*.rt | sed 's/^ *//' | sort | uniq -c | awk '$1 >= 3' | sort -rn ;;
6) src '\[[A-Za-z]+(<[A-Za-z]+>)?; (N|[0-9]+)\]|[^a-z]len: (u8|usize|u16)|count: usize|have: u8|[^a-z]texts: usize|used: u16|bound: usize' | grep -v 'ensures\|requires\|ghost\|tests\.rt' ;;
7) src '\bdyn |impl Fn|: Fn(Mut|Once)?\(|\bfn\(' ;;
8) grep -rnE '^pub [^ ]+ : goal\.' crates/*/proofs --include=Answers.antt ;;
*) echo "a point from 1 to 8" >&2; exit 2 ;;
esac
