#!/usr/bin/env bash
# Scripts that are too long to be stored, and their replies: `long.sh NAME script` and `long.sh NAME replies`.
set -eu

# So many handles fit in the table, and so many links has a chain.
readonly MOST=65536

# So many objects of 24 bytes fill the contexts that are begun within the budget of generation 0, of 262,144 bytes.
readonly BUDGET=11220

# The place of object number $1 of 24 bytes, all of which stay: 340 of them stand in each context of 8,192 bytes. After
# the first $2 of them, and then after each $BUDGET, the next one collects, and contexts begin behind what was kept.
place_of() {
    local number=$1 batch=$2 base=$((0x10001000))
    while ((number >= batch)); do
        base=$((base + (batch - 1) / 340 * 8192 + (batch - 1) % 340 * 24 + 24))
        number=$((number - batch))
        batch=$BUDGET
    done
    printf -v place '%016x' $((base + number / 340 * 8192 + number % 340 * 24))
}

# The table of handles is full, and a number that was freed is given again.
full_table_script() {
    printf 't1 handle weak l0\n%.0s' $(seq $MOST)
    printf '%s\n' 't1 handle weak l0' 't1 free h7' 't1 handle strong l0' 't1 handle weak l0'
}

full_table_replies() {
    printf 'h%d\n' $(seq 0 $((MOST - 1)))
    printf '%s\n' 'refused too-many-handles' 'ok' 'h7' 'refused too-many-handles'
}

# A chain of objects, each tied to the next one by a dependent handle, which is line $1, is collected with the object
# that keeps all others, and without it. That object is taken by line $2.
chain_script() {
    printf '%s\n' 'type N class r' 't1 new l1 N' 't1 copy l0 l1'
    printf "t1 new l2 N\n$1\nt1 copy l1 l2\n%.0s" $(seq $MOST)
    printf '%s\n' "$2" 't1 null l1' 't1 null l2' 't1 collect 2 sweeping' 't1 null l0' 't1 collect 2 sweeping'
}

# Its replies, where the object that keeps the others has the number $1.
chain_replies() {
    place_of 0 $BUDGET
    printf '%s\n' 'mt 00007ff000000040' $place $place
    for ((i = 0; i < MOST; i++)); do
        place_of $((i + 1)) $BUDGET
        printf '%s\nh%d\n%s\n' $place $i $place
    done
    place_of "$1" $BUDGET
    printf '%s\n' $place 'ok' 'ok' "collected 2 sweep kept $((MOST + 1)) freed 0"
    printf '%s\n' 'ok' "collected 2 sweep kept 0 freed $((MOST + 1))"
}

# So many slots has the wide table, and so many pairs hang from it.
readonly PAIRS=10000

# So many objects of 24 bytes fill those that are begun within the budget beside it.
readonly BESIDE=7820

# A wide table of pairs of objects, more than the stack of a marking holds, is compacted.
wide_table_script() {
    printf '%s\n' 'type A refs' 'type N class r' "t1 new l0 A $PAIRS"
    printf 't1 new l1 N\nt1 new l2 N\nt1 set l1 0 l2\nt1 set l0 %d l1\n' $(seq 0 $((PAIRS - 1)))
    printf '%s\n' 't1 null l1' 't1 null l2' 't1 collect 2 compacting'
    printf "t1 get l3 l0 %d\nt1 get l4 l3 0\n" 0 170 $((PAIRS - 1))
}

# The table has 24 bytes beside its slots. Behind it the pairs stood in contexts, and end to end afterwards.
wide_table_replies() {
    local width=$((24 + 8 * PAIRS)) first i
    printf '%s\n' 'mt 00007ff000000040' 'mt 00007ff000000080'
    place_of 0 $BESIDE
    printf '%s\n' $place
    for ((i = 0; i < 2 * PAIRS; i += 2)); do
        place_of $i $BESIDE
        first=$((0x$place + width))
        printf '%016x\n%016x\nok\nok\n' $first $((first + 24))
    done
    printf '%s\n' 'ok' 'ok' "collected 2 compact kept $((2 * PAIRS + 1)) freed 0"
    place_of 0 $BESIDE
    for i in 0 170 $((PAIRS - 1)); do
        first=$((0x$place + width + 48 * i))
        printf '%016x\n%016x\n' $first $((first + 24))
    done
}

case "$1 $2" in
    'full-table script') full_table_script ;;
    'full-table replies') full_table_replies ;;
    'rising-chain script') chain_script 't1 handle dependent l1 l2' 't1 copy l0 l0' ;;
    'rising-chain replies') chain_replies 0 ;;
    'falling-chain script') chain_script 't1 handle dependent l2 l1' 't1 copy l0 l1' ;;
    'falling-chain replies') chain_replies $MOST ;;
    'wide-table script') wide_table_script ;;
    'wide-table replies') wide_table_replies ;;
    *) exit 2 ;;
esac
