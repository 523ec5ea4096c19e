"""That module.py finds what is not plain, and writes the module of another target as C calls it there. The last line is the count."""
import contextlib
import io
import pathlib
import sys
import tempfile

from tests.cross import module
from tests.harness import runner

HEAD = 'target datalayout = "e-x"\ntarget triple = "x86_64-unknown-linux-gnu"\n'
OTHER = 'target datalayout = "e-other"\ntarget triple = "other-unknown-linux-gnu"\n'
TAIL = 'attributes #0 = { nounwind "probe-stack"="inline-asm" "target-cpu"="x86-64" "target-features"="+sse2,+x87" }\n'
PLAIN = "define noundef i32 @fbk_a(ptr noundef %a0, i64 noundef %a1, i8 noundef %a2) #0 {\nstart:\n  ret i32 0\n}\n"

UNFIT = [
    ("define void @fbk_a(ptr noundef sret([8 x i8]) align 8 %a0) #0 {", ["fbk_a: parameter 1 is ptr sret([8 x i8])"]),
    ("define i32 @fbk_a(i32 %a0, ptr byval({ i64, i32 }) align 8 %a1, i32 %a2) {", ["fbk_a: parameter 2 is ptr byval({ i64, i32 })"]),
    ("define noundef ptr @fbk_a(ptr noundef %a0, i32 noundef %a1) #0 {", ["fbk_a: gives back ptr"]),
    ("define i8 @fbk_a() #0 {", ["fbk_a: gives back i8"]),
    ("define i32 @fbk_a([2 x i64] %a0) #0 {", ["fbk_a: parameter 1 is [2 x i64]"]),
    ("define { i64, i64 } @fbk_a(i64 %a0) {", ["fbk_a: gives back { i64, i64 }"]),
    ("define i32 @fbk_a(ptr inreg %a0) {", ["fbk_a: parameter 1 is ptr inreg"]),
    ('define internal void @"capi::a"(ptr sret([8 x i8]) %a0) {', []),
    ("declare void @other(ptr sret([8 x i8]))", []),
]


def run(what, *texts):
    """The status of module.py, what it writes and what it says."""
    with tempfile.TemporaryDirectory() as place:
        files = [pathlib.Path(place) / str(number) for number in range(len(texts))]
        for file, text in zip(files, texts):
            file.write_text(text)
        with contextlib.redirect_stdout(io.StringIO()) as written, contextlib.redirect_stderr(io.StringIO()) as said:
            status = module.main(what, *files)
    return status, written.getvalue(), said.getvalue().replace("    ", "").splitlines()


def plain(_, tally):
    tally.same(run("plain", HEAD + PLAIN + TAIL), (0, "", []), "plain")
    for line, faults in UNFIT:
        tally.same(run("plain", HEAD + PLAIN.replace("fbk_a", "fbk_b") + line + "\n" + TAIL), (1 if faults else 0, "", faults), line)
    tally.same(run("plain", HEAD + TAIL)[0], 1, "a module with nothing to call")


def like(_, tally):
    declared = OTHER + "declare signext i32 @fbk_a(ptr noundef, i64 noundef, i8 noundef zeroext) #1\n"
    hidden = PLAIN.replace("fbk_a", "fbk_b")
    wanted = OTHER + PLAIN.replace("define", "define signext") + hidden.replace("define", "define internal")
    wanted += 'attributes #0 = { nounwind "probe-stack"="inline-asm" }\n'
    tally.same(run("like", declared, HEAD + PLAIN + hidden + TAIL), (0, wanted, []), "another target")
    for wrong in ["i32 @fbk_a(i64, ptr, i8)", "i32 @fbk_a(ptr, i64)", "i64 @fbk_a(ptr, i64, i8)", "void @fbk_a(ptr sret(%s), i64, i8)"]:
        status, written, said = run("like", OTHER + f"declare {wrong}\n", HEAD + PLAIN + TAIL)
        tally.same((status, written, len(said)), (1, "", 1), "declared otherwise:", wrong)


class Cases:
    GROUPS = [("module.py: what is not plain", plain), ("module.py: a module for another target", like)]


if __name__ == "__main__":
    sys.exit(runner.run(None, [Cases]))
