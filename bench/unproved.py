"""A program made of the sources without proof, to be measured: `python3 unproved.py CRATE_FOLDER LEVEL OUT`, with LEVEL -O0 or -O3.

`rt try` compiles the crate with tests of what a proof would show, and keeps no program. So the module that it hands to clang is caught while
it does, rid of these tests and of what fills locals before their first use, and compiled and linked anew. What `rt run` builds of a proved
crate is another program: compare such ones with each other alone."""

import contextlib
import os
import re
import subprocess
import sys
import tempfile
import time

FLAGS = """--target=x86_64-unknown-linux-gnu -march=x86-64 -mllvm -no-trap-after-noreturn -ffunction-sections -fdata-sections
    -mllvm -trap-unreachable -mllvm -no-x86-call-frame-opt -mllvm -disable-machine-licm -mllvm -disable-postra-machine-licm
    -mllvm -sink-common-insts=false --no-default-config -fno-crash-diagnostics -fPIE -c -x ir""".split()
LINKED = "-m elf_x86_64 -pie --dynamic-linker /lib64/ld-linux-x86-64.so.2 --as-needed -z now --eh-frame-hdr --gc-sections".split()
TESTS = re.compile(r'^ *call void (@llvm\.memset\.p0\.i64\(ptr %r\d+, i8 -86, |@"rattle-llvm-checks::).*\n', re.MULTILINE)
LARGE = 1 << 20


def is_read(folder):
    """Whether a clang is at work below a folder: then the module that it reads there is whole."""
    for number in filter(str.isdigit, os.listdir("/proc")):
        with contextlib.suppress(OSError), open(f"/proc/{number}/comm", encoding="utf-8") as name:
            if name.read().startswith("clang") and os.readlink(f"/proc/{number}/cwd").startswith(folder + "/"):
                return True
    return False


def caught(crate, folder):
    """The module of the crate that `rt try` hands to clang. Once clang reads it `rt try` is ended: its own program is not needed."""
    kept = os.path.join(folder, "module.bc")
    words = ["rt", "try", "--steps", "1000", "--", "dry"]
    with tempfile.TemporaryFile() as said:
        tried = subprocess.Popen(words, cwd=crate, env={**os.environ, "TMPDIR": folder}, stdin=subprocess.DEVNULL, stdout=said, stderr=subprocess.STDOUT)
        while tried.poll() is None and not (os.path.exists(kept) and is_read(folder)):
            for inner, _, _ in os.walk(folder):
                path = os.path.join(inner, "module.bc")
                with contextlib.suppress(FileNotFoundError):
                    if inner != folder and not os.path.exists(kept) and os.path.getsize(path) > LARGE:
                        os.link(path, kept)
            time.sleep(0.05)
        tried.terminate()
        tried.wait()
        if not os.path.exists(kept):
            said.seek(0)
            sys.exit(f"no module was caught of {crate}, whose `rt try` said:\n{said.read().decode(errors='replace')}")
    return kept


def main(words):
    crate, level, out = words
    kit = os.path.dirname(subprocess.run(["rt", "doc"], capture_output=True, text=True, check=True).stdout.strip())
    tools, lib = f"{kit}/toolchain/bin", f"{kit}/toolchain/lib"
    with tempfile.TemporaryDirectory() as folder:
        text, made = os.path.join(folder, "module.ll"), os.path.join(folder, "module.o")
        printed = ["-S", "-emit-llvm", "-Xclang", "-disable-llvm-passes", "-O0", "-x", "ir"]
        subprocess.run([f"{tools}/clang", *printed, caught(crate, folder), "-o", text], check=True)
        with open(text, encoding="utf-8") as file:
            plain = TESTS.sub("", file.read()).replace(" sanitize_address", "")
        with open(text, "w", encoding="utf-8") as file:
            file.write(plain)
        subprocess.run([f"{tools}/clang", *FLAGS, level, text, "-o", made], check=True)
        ends = [f"{lib}/{it}" for it in ("libm.so.6", "libc.so.6", "libc_nonshared.a", "ld-linux-x86-64.so.2", "libgcc.a", "libgcc_s.so.1", "crtendS.o", "crtn.o")]
        begins = [f"{lib}/{it}" for it in ("Scrt1.o", "crti.o", "crtbeginS.o")]
        ours = [made, f"{kit}/c/libos_c.a", f"{kit}/c/liblibc_c.a"]
        subprocess.run([f"{tools}/ld.lld", *LINKED, "-o", out, *begins, *ours, *ends], check=True)


if __name__ == "__main__":
    main(sys.argv[1:])
