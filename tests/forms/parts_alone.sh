#!/usr/bin/env bash
# Tries parts of the forms alone, on this machine: the functions on bytes and the memory of erd.wasm, the heap of the other forms, and what
# rewrites the texts of modules. It needs no proof. One line a case.
set -u
. "$(dirname "$0")/../shared/start.sh" || exit 1
. tests/shared/commands.sh

run "${CC:-cc}" -std=gnu11 -O1 -Wall -Wextra -Wno-unused-function -no-pie -Wl,--defsym,wasm_heap_base=0x10001 tests/forms/parts_alone.c -o "$work/parts"
expect 'the functions on bytes, and the heap' 0
run "$work/parts"
expect_text 'what they do' 0 ''

# rewritten NAME TEXT WORD ..: a program of Python makes this text of what stands in $work/in
rewritten() {
    python3 "${@:3}" < "$work/in" > "$work/out" 2> "$work/err"
    status=$?
    expect_text "$1" 0 "$2"
}

# A function with two parameters and two locals, and one with none.
cat > "$work/in" << 'END'
(module
  (func (;0;) (type 0) (param i64 i32) (result i64)
    (local v128 i64)
    local.get 0
    v128.load8_splat offset=3
    v128.load32_zero offset=4 align=1
    v128.load64_zero
    v128.load16_lane offset=2 align=1 5
    v128.store64_lane 1
    v128.load offset=16
  (func (;1;) (type 1)
    v128.load64_lane 0
    v128.store8_lane offset=1 15
    v128.load16_splat
END
rewritten 'loads and stores of vectors' '(module
  (func (;0;) (type 0) (param i64 i32) (result i64)
    (local v128 i64)
    (local v128 i32 i64)
    local.get 0
i32.load8_u offset=3
i8x16.splat
i32.load offset=4 align=1
i32x4.splat
v128.const i32x4 0xffffffff 0 0 0
v128.and
i64.load
i64x2.splat
v128.const i64x2 0xffffffffffffffff 0
v128.and
local.set 4
i32.load16_u offset=2 align=1
local.set 5
local.get 4
local.get 5
i16x8.replace_lane 5
i64x2.extract_lane 1
i64.store
    v128.load offset=16
  (func (;1;) (type 1)
    (local v128 i32 i64)
local.set 0
i64.load
local.set 2
local.get 0
local.get 2
i64x2.replace_lane 0
i8x16.extract_lane_u 15
i32.store8 offset=1
i32.load16_u
i16x8.splat' packaging/portable/wasm/plain_loads.py

# What only `slow` needs is made small: what it calls, and what stands in a table that it reads.
module() {
    cat << END
@fixed = private constant [1 x ptr] [ptr @kept]
@table = private constant [1 x ptr] [ptr @"in table"]
define void @fast(ptr %0) #0 {
  call void @shared()
  call void @next()
  load ptr, ptr @fixed
}
define internal void @kept() {
}
define void @slow()$1 #1 {
  call void @own()
  call void @shared()
  load ptr, ptr @table
}
define internal void @shared() #0 {
  call void @own.2()
}
define internal void @own.2() {
}
define internal void @next() #0 {
}
define internal void @own()$1 {
}
define internal void @"in table"()$1 #2 {
}
END
}
module '' > "$work/in"
rewritten 'functions that are made small' "$(module ' minsize optsize')" packaging/portable/wasm/small.py slow
python3 packaging/portable/wasm/small.py slow none own < "$work/in" > "$work/out" 2> "$work/err"
status=$?
expect_text 'calls that the module has not' 1 ''
equal 'they are named' "$(cat "$work/err")" 'small.py: the module has no call @none @own'

counts
