"""What is taken out of a module, and what is put in, before it is compiled without a proof."""
import os
import tempfile
import unittest

import loaded

build = loaded.tool("build")

SOURCE = """
#[inline(always)]
pub fn small(n: u32) -> u32 {
    n
}

#[inline(never)]
// why
#[cold]
fn rare() {}

fn plain() {}

#[inline]
fn twice() {}
mod other {
    fn twice() {}
}
"""


class Builds(unittest.TestCase):
    def test_tests_that_proofs_make_needless_are_taken_out(self):
        self.assertEqual(build.lightened("  call void @llvm.trap()\n", {}), "")
        self.assertEqual(build.lightened("  call void @llvm.memset.p0.i64(ptr %a, i8 -86, i64 8, i1 false)\n", {}), "")
        zeros = "  call void @llvm.memset.p0.i64(ptr %a, i8 0, i64 8, i1 false)\n"
        self.assertEqual(build.lightened(zeros, {}), zeros)
        self.assertEqual(build.lightened('attributes #1 = { sanitize_address "frame-pointer"="all" nounwind }\n', {}), "attributes #1 = { nounwind }\n")

    def test_hints_are_those_of_the_sources_where_a_name_has_one_alone(self):
        with tempfile.TemporaryDirectory() as room:
            os.makedirs(f"{room}/crates/field/src")
            with open(f"{room}/crates/field/src/lib.rt", "w", encoding="utf-8") as source:
                source.write(SOURCE)
            hints = build.all_hints([f"{room}/crates"])
        self.assertEqual(hints, {("field", "small"): "alwaysinline", ("field", "rare"): "noinline"})

    def test_a_function_gets_its_hint_before_its_attributes(self):
        hints = {("field", "small"): "alwaysinline"}
        self.assertEqual(build.lightened('define internal i32 @"field::small"(i32 %n) #3 {\n', hints),
                         'define internal i32 @"field::small"(i32 %n) alwaysinline #3 {\n')
        other = 'define internal i32 @"other::small"(i32 %n) #3 {\n'
        self.assertEqual(build.lightened(other, hints), other)
