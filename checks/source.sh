#!/usr/bin/env bash
# What no proof shows of the source: which files can make counters, which call counts aside, and where nodes are made, on which clauses
# on steps rest; and where memory is not freed.
# shellcheck source=checks/common.sh
. "$(dirname "$0")/common.sh"

# Prints the lines of the source of all crates but those of tests in which a text occurs, as `crates/NAME/src/FILE LINE`, without the spaces
# at the start of a line. Comments, and what only clauses name, are left out.
lines_with() {
    (cd "$top" && grep -rE --include='*.rt' -- "$1" crates/*/src) | grep -v '^crates/[a-z_]*_tests/' | sed 's/:[[:space:]]*/ /' |
        grep -vE '^[^ ]* (//|ghost use )' | sort
}

# A body that is generic in the label of its counter counts with its caller's counter alone, if it comes to no type with `Label` and to no
# counter but its caller's. The files that have such a type are listed: no other file names `Label`, but those of btr_tree that declare it,
# and the one that asks for it.
expect 'types with Label stand in these files alone' "$(lines_with '\bimpl\b.*\bLabel\b.*\bfor\b')" \
    'crates/btr_distil/src/changed.rt impl Label for InputWalk {}
crates/btr_distil/src/split_times.rt impl Label for CountWalk {}
crates/btr_open/src/loading.rt impl Label for OpenWalk {}
crates/btr_open/src/shelf_rows.rt impl Label for ShelfWalk {}
crates/btr_scan/src/range_walk.rt impl Label for RangeWalk {}
crates/btr_streams/src/answering.rt impl Label for AnswerWalk {}
crates/btr_streams/src/next_tree.rt impl Label for StageWalk {}
crates/btr_verify/src/judging.rt impl Label for JudgeWalk {}
crates/btr_window/src/window_walk.rt impl Label for WindowWalk {}'
expect 'no other file names Label' "$(lines_with '\bLabel\b' | cut -d ' ' -f 1 | uniq)" \
    'crates/btr_diff/src/fetched_changes.rt
crates/btr_distil/src/changed.rt
crates/btr_distil/src/split_times.rt
crates/btr_open/src/loading.rt
crates/btr_open/src/shelf_rows.rt
crates/btr_scan/src/range_walk.rt
crates/btr_streams/src/answering.rt
crates/btr_streams/src/next_tree.rt
crates/btr_tree/src/lib.rt
crates/btr_tree/src/steps.rt
crates/btr_tree/src/uncounted.rt
crates/btr_verify/src/judging.rt
crates/btr_window/src/window_walk.rt'
# So are the lines that make a counter, and those that make a tree whose nodes are counted aside. No call hands a counter out but those that
# make one, that of such a tree, and those that build a part of a tree, which hand out its fork.
expect 'counters are made in these lines alone' "$(lines_with '\b(Steps|Fork)\b.*\bnew\b|\buncounted::<')" \
    'crates/btr_diff/src/fetched_changes.rt older: Steps::<M>::new(),
crates/btr_distil/src/changed.rt let mut steps = Steps::<InputWalk>::new();
crates/btr_distil/src/changed.rt let older = old.uncounted::<InputWalk>();
crates/btr_distil/src/split_times.rt let mut steps = Steps::<CountWalk>::new();
crates/btr_distil/src/split_times.rt let mut steps = Steps::<CountWalk>::new();
crates/btr_open/src/loading.rt steps: Steps::new(),
crates/btr_open/src/shelf_rows.rt let mut steps = Steps::<ShelfWalk>::new();
crates/btr_open/src/shelf_rows.rt let mut steps = Steps::<ShelfWalk>::new();
crates/btr_open/src/shelf_rows.rt let mut steps = Steps::<ShelfWalk>::new();
crates/btr_scan/src/range_walk.rt let mut steps = Steps::<RangeWalk>::new();
crates/btr_scan/src/range_walk.rt let mut steps = Steps::<RangeWalk>::new();
crates/btr_streams/src/answering.rt let mut steps = Steps::<AnswerWalk>::new();
crates/btr_streams/src/answering.rt let mut steps = Steps::<AnswerWalk>::new();
crates/btr_streams/src/answering.rt let older = older.uncounted::<AnswerWalk>();
crates/btr_streams/src/next_tree.rt let mut steps = Steps::<StageWalk>::new();
crates/btr_tree/src/shared.rt let mut fork = Fork::new();
crates/btr_tree/src/shared.rt let mut fork = Fork::new();
crates/btr_verify/src/judging.rt let mut steps = Steps::<JudgeWalk>::new();
crates/btr_window/src/window_walk.rt let mut steps = Steps::<WindowWalk>::new();
crates/btr_window/src/window_walk.rt let mut steps = Steps::<WindowWalk>::new();'
expect 'no other call hands a counter out' "$(lines_with '(->|\btype\b) .*\b(Steps|Fork)\b')" \
    'crates/btr_tree/src/shared.rt ) -> (Result<Part, TreeFault>, Fork)
crates/btr_tree/src/shared.rt let build_back = || -> (Result<Part, TreeFault>, Fork)
crates/btr_tree/src/shared.rt let build_front = || -> (Result<Part, TreeFault>, Fork)
crates/btr_tree/src/steps.rt pub fn new() -> Steps<L>
crates/btr_tree/src/steps.rt pub(crate) fn aside() -> Steps<Aside>
crates/btr_tree/src/steps.rt pub(crate) fn new() -> Fork
crates/btr_tree/src/uncounted.rt pub fn counter(self) -> Steps<Aside>'
# The walks whose steps a clause bounds, the walk over a range that counts with its caller's counter, and those of btr_verify by which a
# stored node is judged, stand in files that name nothing but one another, btr_base and btr_tree. Of the public calls of these two only
# `Steps::new` makes a counter, and a tree of `Tree::uncounted` one by `counter`. The walk of differences has that counter for the older
# tree: one line takes it, and one visits the older tree's nodes with it. If nodes are fetched, one line makes it, of a label of the
# caller's own.
expect 'walks that count for their caller stand in these files' \
    "$(lines_with '\bpub fn [a-z_]+<.*\bL>' | grep -E '^crates/btr_(diff|scan|window)/' | cut -d '<' -f 1)" \
    'crates/btr_diff/src/comparing.rt pub fn changes
crates/btr_diff/src/comparing.rt pub fn changes_with_lead
crates/btr_diff/src/comparing.rt pub fn compare
crates/btr_diff/src/fetched_changes.rt pub fn changes_from
crates/btr_scan/src/nearest_walk.rt pub fn nearest
crates/btr_scan/src/nearest_walk.rt pub fn nearest_from
crates/btr_scan/src/nearest_walk.rt pub fn nearest_in_place
crates/btr_scan/src/span_walk.rt pub fn append_in_place
crates/btr_window/src/range_aggregate.rt pub fn aggregate
crates/btr_window/src/range_aggregate.rt pub fn aggregate_from'
walks='crates/btr_diff/src/comparing.rt crates/btr_diff/src/comparison.rt crates/btr_diff/src/fetched_changes.rt
crates/btr_diff/src/gathering.rt crates/btr_diff/src/leaf_walk.rt crates/btr_diff/src/newer_slot.rt crates/btr_diff/src/points.rt
crates/btr_diff/src/tree_walk.rt
crates/btr_scan/src/backward.rt crates/btr_scan/src/forward.rt crates/btr_scan/src/nearest_walk.rt crates/btr_scan/src/span_walk.rt
crates/btr_window/src/inside.rt crates/btr_window/src/part.rt crates/btr_window/src/range_aggregate.rt crates/btr_verify/src/finding.rt crates/btr_verify/src/own.rt'
# shellcheck disable=SC2086
expect 'walks that count for their caller call no other walk' \
    "$(cd "$top" && grep -vhE '^ *//|^ghost use ' $walks | sed 's/pub(crate)//' |
        grep -oE '\b(btr_[a-z_]+|super|crate(::[a-z_]+)?)\b' | sort -u)" \
    'btr_base
btr_tree
crate::backward
crate::comparing
crate::comparison
crate::finding
crate::forward
crate::gathering
crate::inside
crate::leaf_walk
crate::newer_slot
crate::part
crate::points
crate::tree_walk'
# A page is fetched by a visit, which counts it, and once more without a count for the place of a root. No other line fetches one.
expect 'pages are fetched in these lines alone' "$(lines_with '\.node\(|\bfetch_node\(|\bfind_root\(')" \
    'crates/btr_diff/src/fetched_changes.rt let newer = find_root(nodes, new)?;
crates/btr_diff/src/fetched_changes.rt let older = find_root(nodes, old)?;
crates/btr_scan/src/nearest_walk.rt let at = find_root(nodes, root)?;
crates/btr_scan/src/range_walk.rt let at = find_root(nodes, root)?;
crates/btr_tree/src/fetch.rt let page = nodes.node(at.block)?;
crates/btr_tree/src/fetch.rt let page = nodes.node(root.block)?;
crates/btr_tree/src/fetched.rt let page = fetch_node(state, span, at)?;
crates/btr_window/src/range_aggregate.rt let at = find_root(nodes, root)?;
crates/btr_window/src/window_walk.rt let at = find_root(nodes, root)?;'
expect 'who builds a part visits no node' \
    "$(grep -nE '\bvisit\b|outside|uncounted' "$top/crates/btr_tree/src/shared.rt" "$top/crates/btr_tree/src/node_count.rt")" ''
# Each node is made by one function, which counts it.
expect 'nodes of trees are made in one place' \
    "$(grep -rnoE 'Arc::(new|try_new|from)\b' "$top/crates/btr_tree/src" | sed "s|^$top/||; s|:[0-9]*:| |")" 'crates/btr_tree/src/node.rt Arc::new'
# A library frees what is dropped. Only the program, which ends, leaves memory to the system.
expect 'memory is forgotten in one place' \
    "$(grep -rnoE '\b(forget|leak|ManuallyDrop::new)\(' "$top"/crates/*/src | sed "s|^$top/||; s|:[0-9]*:| |")" \
    'crates/btr_run/src/main.rt forget('
