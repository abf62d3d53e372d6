#!/usr/bin/env bash
# Has Git write a commit-graph file (levels alone) of a history with merges of two to five parents, has the program write one of the same commits, and
# compares the two, Git's closing checksum left out. Needs crates/cgraph/out/cgraph, as `rt run` makes it there.
set -euo pipefail
program=$(cd "$(dirname "$0")/.." && pwd)/crates/cgraph/out/cgraph
work=$(mktemp -d)
trap 'rm -rf "$work"' EXIT
git init -q -b main "$work/repo"
cd "$work/repo"
export GIT_AUTHOR_NAME=A GIT_AUTHOR_EMAIL=a@example.org GIT_COMMITTER_NAME=A GIT_COMMITTER_EMAIL=a@example.org

# A commit with a message, a date and parents.
commit() {
    local message=$1 date=$2 args=() p
    shift 2
    for p in "$@"; do args+=(-p "$p"); done
    echo "$message" > file
    git add file
    GIT_AUTHOR_DATE="$date +0000" GIT_COMMITTER_DATE="$date +0000" git commit-tree "$(git write-tree)" "${args[@]}" -m "$message"
}

r=$(commit root 1000000000)
a=$(commit a 1000000300 "$r")
b=$(commit b 1000000100 "$r")
c=$(commit c 1000000200 "$a")
d=$(commit d 1000000050 "$b")
m=$(commit four 1000000400 "$a" "$b" "$c" "$d")
o=$(commit other 900000000)
m=$(commit three 1000000500 "$m" "$o" "$d")
x=$m
for i in $(seq 1 40); do x=$(commit "x$i" $((1000001000 + i)) "$x"); done
y=$m
for i in $(seq 1 17); do y=$(commit "y$i" $((1000001000 - i)) "$y"); done
z=$(commit two 1000002000 "$x" "$y")
w=$(commit five 1000002100 "$z" "$o" "$a" "$b" "$c")
git update-ref refs/heads/main "$(commit last 1000002200 "$w" "$x" "$y" "$d")"
git -c commitGraph.generationVersion=1 commit-graph write --reachable 2> /dev/null
head -c -20 .git/objects/info/commit-graph > "$work/git.graph"

git log --topo-order --reverse --format='%H %T %ct %P' main | awk -v out="$work/ours.graph" '
    BEGIN { print "open level 1000 1000 1000 1000" }
    { line = "add " $1 " " $2 " " $3; for (i = 4; i <= NF; i++) line = line " " number[$i]; number[$1] = NR - 1; print line }
    END { print "write " out }' | "$program" | tail -n 1
cmp "$work/ours.graph" "$work/git.graph"
echo "the two files are the same"
