#!/usr/bin/env bash
# Counts, in the sources of this tree or of the one given, the lines by which docs/DESIGN-PASS.md finds places that could be written in another form.
set -uo pipefail
cd "${1:-$(dirname "$0")/..}"
count() { printf '%-62s %s\n' "$1" "$(eval "$2" | wc -l)"; }
S='crates/*/src/*.rt'
echo '1  own options and results, flags, numbers for kinds'
count 'refusals and faults as an Option' "grep -nE -- '-> Option<[A-Za-z]*(Refusal|Fault)>' $S"
count 'byte places of faults as an Option' "grep -nE -- '-> Option<usize>' crates/graph_reader/src/*.rt"
count 'numbers as errors' "grep -nE 'Result<[^;{]*, (u8|u32|u64|usize)>' $S"
count 'flags in structs' "grep -nE '^\s+(pub(\(crate\))? )?[a-z_]+: bool,' $S"
count 'marks compared with numbers' "grep -nE '(marks?\[[^]]*\]|\*?mark|\*?m|\*?byte|result) (==|!=|=) [0-4]\b' $S"
count 'arms that answer a small number' "grep -nE '=> [0-9]+,' $S"
echo '2  twins'
count 'names of functions that stand twice or more' "grep -hoE '\bfn [a-z_0-9]+' $S | sort | uniq -d"
count 'names of types that stand twice or more' "grep -hoE '\b(struct|enum|trait|type) [A-Z][A-Za-z0-9]+' $S | sort | uniq -d"
echo '3  loops'
count 'loops over counted numbers, and plain whiles' "grep -nE 'for [a-z_]+ in [^ ]*\.\.|while [^l]' $S"
count 'all loops' "grep -nE '^\s*(for|while|loop)\b' $S"
count 'counts kept by hand beside a loop' "grep -nE '^\s+(count|next|start|total|found|here|taken|place|waiting|visits|ahead|behind) (\+=|= [a-z]+\.saturating_add)' $S"
count 'iterator chains and library methods' "grep -nE '\.(any|all|find|position|map|filter|sum|count|zip|fold|take_while|partition_point|copied|chunks_exact|windows|as_chunks|rotate_right|fill|copy_from_slice)\(' $S"
echo '4  equality, order, conversion, printing'
count 'functions that compare' "grep -nE 'fn (eq|ne|equals?|same|cmp|compare|lt|less|precedes|bytes_before|is_before|before|sooner|comes_before|comes_first)\b' $S"
count 'arms that hand on what they match' "grep -nE '(Ok|Some)\((\w+)\) => (Ok|Some)\(\2\)' $S"
count 'impls of the library'"'"'s traits' "grep -nE 'impl.* (From<|TryFrom<|FromStr|fmt::Display|Default|PartialEq|Ord|PartialOrd|Iterator|Drop)[^;]* for ' $S"
echo '5  facts in contracts, parameters that travel together'
count 'clauses that stand three times and more' "grep -hE '^\s*(requires|ensures)' $S | sed -E 's/^ *(requires|ensures) ([a-z_]+ )?//' | sort | uniq -c | awk '\$1>=3'"
count 'clauses under: the tables represent a model' "grep -hE '^\s*(requires|ensures)' $S | grep Represents"
count 'clauses in all' "grep -hE '^\s*(requires|ensures)' $S"
count 'ghost fields and models' "grep -nE 'impl.* Model for|^\s+ghost [a-z_]+: \{' $S"
echo '6  lengths beside buffers, searches by hand'
count 'fields that count beside a slice' "grep -nE '^\s+(pub(\(crate\))? )?(count|used|size|len|length|filled|top|at|entries|from|place|taken): (usize|u32),' $S"
count 'lines of a halving by hand' "grep -nE 'middle|let mut high|\(high - low\)' $S"
echo '7  switches on the step'
count 'enums named as steps or goals' "grep -nE 'enum (Goal|Step|Mode|Stage|Phase|Task|Action|Test|Rule|Op)' $S"
count 'closures and function parameters' "grep -nE '\bdyn\b|impl Fn|: Fn|FnOnce|FnMut|\|[a-z_, ]*\| ' $S"
echo '8  proofs'
count 'files of answers' "find crates/*/proofs -name Answers.antt"
count 'files of invariants' "find crates/*/proofs -name Invariants.antt"
count 'lines of proofs' "find crates/*/proofs -name '*.antt' | xargs cat"
