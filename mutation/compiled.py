"""Compiles mutants with no proof and runs them. The toolchain compiles only what is proved; but Rattle's text without contracts, ghost
lines and the prover's attributes is Rust, and rustc compiles that, with overflow checks. The exports of gomxeli_c become a shared
library. The programs of driver/ and oracle/ are built once, by their own scripts, on an archive whose exports jump into the shared library that GOMXELI_LIBRARY names."""
import os
import re
import shutil
import signal
import subprocess
import threading

from proving import WORK
from source import File, Trouble, digest_of, root

HOME = WORK / "compiled"
RUSTC = ["nice", root / "oracle/rustc", "--edition", "2021", "-O", "-C", "overflow-checks=on", "-C", "panic=abort", "--cap-lints", "allow"]
NO_LIBRARY = 99
KINDS = ("mcq", "iq", "reg", "lb", "req", "txm", "txr", "img")

# What the program `calls` uses of the kit's libraries, and of Rattle's std that Rust's has not.
KIT = {
    "itoa": """
        pub trait Integer: ToString {}
        impl Integer for u8 {}
        impl Integer for u16 {}
        pub struct Buffer(String);
        impl Buffer {
            pub fn new() -> Buffer { Buffer(String::new()) }
            pub fn format<I: Integer>(&mut self, n: I) -> &str { self.0 = n.to_string(); &self.0 }
        }
    """,
    "arrayvec": """
        use std::ops::Deref;
        pub struct ArrayVec<T, const CAP: usize>(Vec<T>);
        impl<T, const CAP: usize> ArrayVec<T, CAP> {
            pub fn new() -> Self { ArrayVec(Vec::new()) }
            pub fn is_full(&self) -> bool { self.0.len() == CAP }
            pub fn push(&mut self, x: T) { assert!(self.0.len() < CAP); self.0.push(x) }
            pub fn clear(&mut self) { self.0.clear() }
        }
        impl<T, const CAP: usize> Deref for ArrayVec<T, CAP> { type Target = [T]; fn deref(&self) -> &[T] { &self.0 } }
        pub struct ArrayString<const CAP: usize>(String);
        impl<const CAP: usize> ArrayString<CAP> {
            pub fn new() -> Self { ArrayString(String::new()) }
            pub fn push(&mut self, c: char) { assert!(self.0.len() + c.len_utf8() <= CAP); self.0.push(c) }
            pub fn push_str(&mut self, s: &str) { assert!(self.0.len() + s.len() <= CAP); self.0.push_str(s) }
            pub fn clear(&mut self) { self.0.clear() }
        }
        impl<const CAP: usize> Deref for ArrayString<CAP> { type Target = str; fn deref(&self) -> &str { &self.0 } }
    """,
    "host": """
        pub use std::io::*;
        pub struct HostRuntime;
        impl HostRuntime { pub fn stdin(&self) -> Stdin { std::io::stdin() } }
        pub fn writer(_: &HostRuntime) -> Stdout { std::io::stdout() }
    """,
}
MAIN = "fn main(rt: HostRuntime)"

FORWARD = """/* Each export jumps into the shared library that GOMXELI_LIBRARY names. */
#include <dlfcn.h>
#include <stdio.h>
#include <stdlib.h>

#define EXPORTS(X) %s
#define PLACE(name) void *at_##name; __asm__(".globl " #name "\\n" #name ": jmp *at_" #name "(%%rip)\\n");
#define FIND(name) at_##name = dlsym(library, #name); found = found && at_##name;

EXPORTS(PLACE)

__attribute__((constructor)) static void load(void)
{
    const char *file = getenv("GOMXELI_LIBRARY");
    void *library = file ? dlopen(file, RTLD_NOW | RTLD_LOCAL) : 0;
    int found = library != 0;
    if (library) {
        EXPORTS(FIND)
    }
    if (!found) {
        fprintf(stderr, "GOMXELI_LIBRARY names no library with all exports\\n");
        _Exit(99);
    }
}
"""


class NotRust(Exception):
    """A mutant that is Rattle and, without its contracts, not Rust."""


def must(words, **more):
    ran = subprocess.run(words, stdout=subprocess.PIPE, stderr=subprocess.STDOUT, check=False, **more)
    if ran.returncode:
        raise Trouble(f"{' '.join(map(str, words))}: exit status {ran.returncode}\n{ran.stdout.decode()}")


def rust_of(file, text):
    """A file's text as Rust: contracts, ghost lines and the prover's attributes taken out; exported by gomxeli_c alone; a program's
    handle of the system handed to it."""
    now = File(file.crate, file.place, text)
    for a, b in sorted(now.ghosts, reverse=True):
        text = text[: now.tokens[a].start] + text[now.tokens[b - 1].end :]
    text = re.sub(r"#\[derive\(([^)]*)\)\]", lambda found: f"#[derive({', '.join(d for d in found[1].split(', ') if d != 'Drop')})]", text)
    if file.crate == "gomxeli":
        text = text.replace("#[unsafe(no_mangle)]", "")
    if MAIN in text:
        text = text.replace("use std::io;", "use host as io; use host::HostRuntime;").replace(MAIN, "fn begin(rt: HostRuntime)")
        text += "\nfn main() -> io::Result<()> { begin(HostRuntime) }\n"
    return text


class Compiler:
    """The crates below `top` as Rust. A mutant compiles its own crate anew and those that stand on it."""

    def __init__(self, tree, deps, top):
        self.tree, self.deps, self.top = tree, {**deps, "calls": [*deps["calls"], "host"]}, top
        self.out = f"lib{top}.so" if top == "gomxeli_c" else f"{top}.run"
        self.wanted = self.below(top)
        self.base = HOME / "unchanged" / top

    def below(self, crate):
        """The crates that `crate` stands on and itself, each after those that it stands on."""
        found = []
        for dep in self.deps.get(crate, []):
            found += [c for c in self.below(dep) if c not in found]
        return [*found, crate]

    def write(self, folder, crate, mutant=None):
        (folder / crate).mkdir(parents=True, exist_ok=True)
        if crate in KIT:
            (folder / crate / "lib.rs").write_text(KIT[crate], encoding="utf-8")
        for file in self.tree.files:
            if file.crate == crate:
                text = mutant.text() if mutant and mutant.function.file is file else file.text
                (folder / crate / f"{file.place.stem}.rs").write_text(rust_of(file, text), encoding="utf-8")

    def compile(self, folder, crate):
        if crate != self.top:
            kind, out = "rlib", f"lib{crate}.rlib"
        else:
            kind, out = ("cdylib" if self.out.endswith(".so") else "bin"), self.out
        main = "main.rs" if kind == "bin" else "lib.rs"
        words = [f"--crate-type={kind}", "--crate-name", crate, "-o", str(folder / out), str(folder / crate / main)]
        for dep in self.deps.get(crate, []):
            own = folder / f"lib{dep}.rlib"
            words += ["--extern", f"{dep}={own if own.exists() else self.base / own.name}"]
        words += ["-L", f"dependency={folder}", "-L", f"dependency={self.base}"]
        return subprocess.run([*RUSTC, *words], stdout=subprocess.PIPE, stderr=subprocess.STDOUT, check=False)

    def unchanged(self):
        """Compiles every crate as it stands."""
        shutil.rmtree(self.base, ignore_errors=True)
        for crate in self.wanted:
            self.write(self.base, crate)
            ran = self.compile(self.base, crate)
            if ran.returncode:
                raise Trouble(f"{crate} does not compile as Rust:\n{ran.stdout.decode()}")
        return self.base / self.out

    def changed(self, mutant):
        """Compiles a mutant."""
        folder = HOME / "mutants" / re.sub(r"\W+", "_", mutant.name)
        shutil.rmtree(folder, ignore_errors=True)
        for crate in self.wanted:
            if mutant.crate in self.below(crate):
                self.write(folder, crate, mutant)
                ran = self.compile(folder, crate)
                if ran.returncode:
                    raise NotRust(ran.stdout.decode())
        return folder / self.out


def forwarding_archive():
    header = (root / "include/gomxeli.h").read_text(encoding="utf-8")
    exports = re.findall(r"(?m)^gomxeli_answer (gomxeli_\w+)\(", header)
    folder = HOME / "forward"
    folder.mkdir(parents=True, exist_ok=True)
    (folder / "forward.c").write_text(FORWARD % " ".join(f"X({name})" for name in exports), encoding="utf-8")
    must(["gcc", "-O1", "-fPIC", "-c", "forward.c", "-o", "forward.o"], cwd=folder)
    must(["ar", "rcs", "libgomxeli.a", "forward.o"], cwd=folder)
    return folder


def build_programs():
    """The tests in C and the comparison with the Rust, on the forwarding archive."""
    folder = forwarding_archive()
    here = {**os.environ, "GOMXELI_ARCHIVE": str(folder / "libgomxeli.a"), "GOMXELI_OUT": str(HOME / "driver")}
    must(["nice", "driver/build"], cwd=root, env=here)
    tree = HOME / "tree"
    shutil.rmtree(tree / "oracle", ignore_errors=True)
    shutil.copytree(root / "oracle", tree / "oracle")
    rust = os.environ.get("GOMXELI_RUST_SRC", str(root / "../shared/docs/src"))
    must(["nice", "oracle/build"], cwd=tree, env={**os.environ, "GOMXELI_ARCHIVES": str(folder), "GOMXELI_RUST_SRC": rust})


class Program:
    """A program that tells wrong code: by its exit status or, where a folder has what it reads and writes, by its output. `seconds` of
    processor time is some three times what it takes on the code as it stands."""

    def __init__(self, name, words, seconds, folder=None):
        self.name, self.words, self.seconds, self.folder = name, words, seconds, folder

    def differs(self, built):
        """How the program tells the built code from what it should be; nothing where it does not."""
        words = ["bash", "-c", 'ulimit -t "$0"; exec nice "$@"', str(self.seconds), *(self.words or [built])]
        given = (self.folder / "stdin").read_bytes() if self.folder else b""
        here = {**os.environ, "GOMXELI_LIBRARY": str(built)}
        ran = subprocess.run(words, input=given, env=here, stdout=subprocess.PIPE, stderr=subprocess.PIPE, check=False)
        said = ran.stderr.decode("utf-8", "replace")
        if ran.returncode in (-signal.SIGXCPU, -signal.SIGKILL):
            return "it does not end"
        if ran.returncode in (NO_LIBRARY, 126, 127):
            raise Trouble(f"{self.name} did not run: {said}")
        if ran.returncode < 0:
            return "it stops: " + " ".join(re.findall(r"panicked at [^\n]*\n([^\n]*)", said)[:1] or ["by a signal"])
        if ran.returncode:
            return "another answer or other bytes"
        if self.folder and ran.stdout != (self.folder / "stdout").read_bytes():
            return "another output"
        return ""


class Stage:
    """A way to run compiled code: how it is compiled, and by which programs it is run. What they need is built when the first mutant
    asks, and the code as it stands must pass."""

    def __init__(self, compiler, build, programs, everything):
        self.compiler, self.build, self.programs, self.everything = compiler, build, programs, everything
        self.lock, self.ready = threading.Lock(), False

    def prepare(self):
        with self.lock:
            if self.ready:
                return
            passed, key = HOME / f"{self.compiler.top}.passed", self.key()
            if not passed.exists() or passed.read_text(encoding="utf-8") != key:
                passed.unlink(missing_ok=True)
                self.build()
                how = caught(self.compiler.unchanged(), self.programs(self.everything))
                if how:
                    raise Trouble(f"{self.compiler.top}, as it stands and compiled as Rust, does not pass: {how}")
                passed.write_text(key, encoding="utf-8")
            self.ready = True

    def key(self):
        """A sum of all that is compiled: where it is the same as at an earlier run, what was built then is used again."""
        here = [root / part for part in ("driver", "oracle", "include", "mutation/compiled.py", "mutation/source.py")]
        here += [root / "crates" / crate / "src" for crate in self.compiler.wanted]
        return digest_of(here)

    def run(self, mutant, what):
        """Compiles and runs a mutant; the program that told it and how, or nothing."""
        self.prepare()
        built = self.compiler.changed(mutant)
        how = caught(built, self.programs(what))
        shutil.rmtree(built.parent)
        return how


def caught(built, programs):
    """The first program that tells the built code from what it should be, and how; or nothing."""
    for program in programs:
        how = program.differs(built)
        if how:
            return [program.name, how]
    return None


def by_exports(kinds):
    compare = [HOME / "tree/target/oracle/compare", "--seed", "1", "--calls", "300000"]
    return [
        Program("compare", [*compare, "--kinds", ",".join(["leaves", "vectors", *kinds])], 60),
        Program("compare", [*compare, "--kinds", "cases,panics"], 30),
        Program("c_test", [HOME / "driver/c_test"], 30),
        Program("fuzz", [HOME / "driver/fuzz", "--seed", "2", "--rounds", "60000", "--thin", "10"], 30),
    ]


def by_calls(_):
    return [Program("calls", [], 10, root / "crates/calls")]


class Runs:
    """The exports, and the program `calls`."""

    def __init__(self, tree, deps):
        self.tree = tree
        self.exports = Stage(Compiler(tree, deps, "gomxeli_c"), build_programs, by_exports, KINDS)
        self.calls = Stage(Compiler(tree, deps, "calls"), lambda: None, by_calls, None)

    def kinds(self, function):
        """The kinds of the exports that reach the function."""
        found = set()
        for path, export in self.tree.functions.items():
            if path.startswith("gomxeli_c::") and function.path in {path} | self.tree.reaches(export):
                found |= {kind for kind in KINDS if f"::gomxeli_{kind}_" in path}
        return sorted(found)

    def run(self, mutant):
        """Compiles and runs a mutant; what told it, or nothing."""
        if mutant.crate == "calls_line":
            return self.calls.run(mutant, None)
        return self.exports.run(mutant, self.kinds(mutant.function))
