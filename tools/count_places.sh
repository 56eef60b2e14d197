#!/usr/bin/env bash
# How many places of each point of docs/DESIGN-PASS.md the sources have at a revision: tools/count_places.sh [REVISION] (HEAD if none is
# given). Each line is what one `git grep` counts, so that a place can be looked at by the same pattern without -c.
set -euo pipefail
cd "$(dirname "$0")/.."
revision=${1:-HEAD}

# Lines of crates/*/src that match a pattern, comments left out.
lines() {
    (git grep -hE "$1" "$revision" -- 'crates/*/src/*.rt' || true) | grep -vcE '^ *//' || true
}

say() {
    printf '%-78s %5d\n' "$1" "$2"
}

say '1. variants Refused(..) of own enums' "$(lines '^ *Refused\(')"
say '1. uses of such variants' "$(lines '::Refused\(')"
say '1. numbers for refusals (Check::NAME)' "$(lines 'Check::[A-Z_]+')"
say '1. own enums of the shape of an Option (NoNumber, Missing, NoProblem, NoWalk)' "$(lines '^ *(NoNumber|Missing|NoProblem|NoWalk|Beyond),')"
say '2. the same five ways to hand an answer on, one for each enum (tell_..)' "$(lines 'pub fn tell_(length|bounded|count|list|network)')"
say '2. scans for the first bad place, one for each check' "$(lines 'return (Check::Refused\(Check::[A-Z_]+, k\)|Err\(Refusal .*place: k)')"
say '3. while loops' "$(lines '^ *while ')"
say '3. indices counted by hand' "$(lines '^ *[a-z_]+ [+-]= 1;')"
say '4. numbers compared, copied and cleared by functions of the repository' "$(lines '(^|[^_[:alnum:].])(less|lesser|greater|apart|clear|copy|are_same)\(')"
say '5. parameter lists with the four parts of a network' "$(lines '^ *nodes: u32,$|nodes: u32, firsts: ')"
say '5. clauses that put the network together from its parts' "$(lines 'network nodes firsts\.now')"
say '6. lines of parameters that are an index list, its part or storage (&mut [u32])' "$(lines '&mut \[u32\]')"
say '7. matches that pick which loop runs' "$(lines 'fn add_row_by_(places|steps)|fn add_row_along')"
say '8. Answers.antt files' "$(git ls-tree -r --name-only "$revision" -- crates | grep -c 'Answers.antt$')"
say '8. lines of proofs' "$(git grep -h '' "$revision" -- 'crates/*/proofs/*.antt' | wc -l)"
