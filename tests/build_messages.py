#!/usr/bin/env python3
"""What bindings/rust/build.rs does in each case: which archive it takes, and what it says where there is none that fits.

    python3 tests/build_messages.py ARCHIVE    ARCHIVE is libpromisebook.a, with libpromisebook_inlined.a beside it

It is compiled once and run as cargo runs it, in repositories of a few files and with few commands on the PATH: a machine without the kit. Needs rustc."""
import os
import re
import shutil
import subprocess
import sys
import tempfile

ROOT = os.path.dirname(os.path.dirname(os.path.abspath(__file__)))
COMMANDS = ["sh", "find", "sort", "xargs", "sha256sum", "cut", "ls", "dirname", "cat", "cp", "touch", "mkdir"]
HELP = {
    "target": "build for such a machine",
    "unset": "or unset it",
    "whole": 'by its whole path, as by: PROMISEBOOK_ARCHIVE="$PWD/libpromisebook.a"',
    "version": "take the archive and this crate from one version",
    "name": "name libpromisebook.a, as dist/ has it or bindings/archive writes it",
    "no kit": "take crates/ and dist/ from one commit, or set PROMISEBOOK_ARCHIVE, or put the command rt of the Rattle kit on the PATH",
}


def write(text, *path):
    os.makedirs(os.path.dirname(os.path.join(*path)), exist_ok=True)
    with open(os.path.join(*path), "wb" if isinstance(text, bytes) else "w") as file:
        file.write(text)
    return os.path.join(*path)


def read(*path):
    with open(os.path.join(*path), "rb") as file:
        return file.read()


class Machine:
    """A machine with a small repository, the build script and the commands that it needs, but no kit."""

    def __init__(self, folder, script):
        self.script = script
        self.repository, self.bin, self.out = (os.path.join(folder, name) for name in ("repository", "bin", "out"))
        for path in (self.bin, self.out):
            os.mkdir(path)
        for name in COMMANDS:
            os.symlink(shutil.which(name), os.path.join(self.bin, name))
        self.command("rustc", "echo 'LLVM version: 22.1.2'")
        write("one:\n", self.repository, "crates.txt")
        write("// Nothing.\n", self.repository, "crates", "one", "src", "lib.rt")
        shutil.copytree(os.path.join(ROOT, "bindings", "rust", "src"), os.path.join(self.crate, "src"))
        shutil.copy(os.path.join(ROOT, "bindings", "crates_hash"), os.path.join(self.repository, "bindings"))

    @property
    def crate(self):
        return os.path.join(self.repository, "bindings", "rust")

    def command(self, name, body):
        path = write("#!/bin/sh\n%s\n" % body, self.bin, name)
        os.chmod(path, 0o755)

    def hash(self):
        script = os.path.join(self.repository, "bindings", "crates_hash")
        return subprocess.run([script], capture_output=True, text=True, check=True).stdout.strip()

    def put(self, folder, archive, version="0.2.0", crates=None):
        """An archive in a folder of the repository, under the name that it has, made from these crates."""
        write("version: %s\nkit: a kit\ncrates: %s\n" % (version, crates or self.hash()), self.repository, folder, "MADE_FROM")
        return write(read(archive), self.repository, folder, os.path.basename(archive))

    def run(self, **variables):
        told = {
            "PATH": self.bin, "OUT_DIR": self.out, "CARGO_MANIFEST_DIR": self.crate, "CARGO_PKG_VERSION": "0.2.0", "RUSTC": os.path.join(self.bin, "rustc"),
            "TARGET": "x86_64-unknown-linux-gnu", "CARGO_CFG_TARGET_ARCH": "x86_64", "CARGO_CFG_TARGET_OS": "linux", "CARGO_CFG_TARGET_VENDOR": "unknown",
            "CARGO_CFG_TARGET_POINTER_WIDTH": "64",
        }
        return subprocess.run([self.script], env={**told, **variables}, capture_output=True, text=True, cwd=self.crate, start_new_session=True)


# ---- the cases: each is a function of a machine and the two archives, and answers a run and what is expected of it: the path of the archive that is linked,
# or what is said of a fault and of what helps


def a_named_archive(machine, plain, inlined):
    return machine.run(PROMISEBOOK_ARCHIVE=plain), plain


def the_shipped_archive(machine, plain, inlined):
    path = machine.put("dist", plain)
    return machine.run(), path


def the_shipped_archive_to_be_inlined(machine, plain, inlined):
    machine.put("dist", plain)
    path = machine.put("dist", inlined)
    return machine.run(CARGO_FEATURE_INLINED="1"), path


def the_archive_in_target_where_the_shipped_one_is_old(machine, plain, inlined):
    shipped = machine.put("dist", inlined, crates="0" * 64)
    os.rename(shipped, os.path.join(os.path.dirname(shipped), "libpromisebook.a"))
    path = machine.put("target/bindings", plain)
    return machine.run(), path


def none_where_the_crates_were_changed_since(machine, plain, inlined):
    machine.put("dist", plain)
    machine.put("target/bindings", plain)
    write("// Something.\n", machine.repository, "crates", "one", "src", "lib.rt")
    changed = "the crates were changed since it was made"
    wrong = "(dist/libpromisebook.a: %s; target/bindings/libpromisebook.a: %s), and no rt on the PATH" % (changed, changed)
    return machine.run(), ("there is no archive of the crates as they are " + wrong, HELP["no kit"])


def none_at_all(machine, plain, inlined):
    wrong = "there is no archive of the crates as they are (dist/libpromisebook.a: it is not there; target/bindings/libpromisebook.a: it is not there)"
    return machine.run(), (wrong, HELP["no kit"])


def none_of_this_version(machine, plain, inlined):
    machine.put("dist", plain, version="0.1.0")
    return machine.run(), ("dist/libpromisebook.a: it is of version 0.1.0, and this crate of 0.2.0", HELP["no kit"])


def none_that_says_what_it_was_made_from(machine, plain, inlined):
    os.remove(os.path.join(os.path.dirname(machine.put("dist", plain)), "MADE_FROM"))
    return machine.run(), ("dist/libpromisebook.a: no MADE_FROM beside it says what it was made from", HELP["no kit"])


def none_whose_crates_can_be_compared(machine, plain, inlined):
    machine.put("dist", plain)
    os.remove(os.path.join(machine.bin, "sha256sum"))
    machine.command("sha256sum", "exit 1")
    return machine.run(), ("cannot be told: bindings/crates_hash needs sh, find, sort and sha256sum", HELP["no kit"])


def one_that_the_kit_writes(machine, plain, inlined):
    machine.command("rt", "exit 0")
    body = '#!/bin/sh\n[ "$1" = --inlined ] && mkdir -p target/bindings && cp "%s" target/bindings/libpromisebook.a\n' % plain
    path = write(body.replace("target/", machine.repository + "/target/"), machine.repository, "bindings", "archive")
    os.chmod(path, 0o755)
    return machine.run(), os.path.join(machine.repository, "target", "bindings", "libpromisebook.a")


def one_that_the_kit_fails_to_write(machine, plain, inlined):
    machine.command("rt", "exit 0")
    os.chmod(write("#!/bin/sh\necho one is not proved >&2\nexit 1\n", machine.repository, "bindings", "archive"), 0o755)
    return machine.run(), ("one is not proved", "see what it says, by running it alone")


def one_that_no_script_writes(machine, plain, inlined):
    machine.command("rt", "exit 0")
    return machine.run(), ("bindings/archive cannot be run", "set PROMISEBOOK_ARCHIVE to the path of one")


def an_empty_variable(machine, plain, inlined):
    return machine.run(PROMISEBOOK_ARCHIVE=""), ("PROMISEBOOK_ARCHIVE is set, but empty", HELP["unset"])


def a_relative_path(machine, plain, inlined):
    return machine.run(PROMISEBOOK_ARCHIVE="libpromisebook.a"), ("PROMISEBOOK_ARCHIVE is libpromisebook.a, which does not begin at the root", HELP["whole"])


def a_folder(machine, plain, inlined):
    folder = os.path.dirname(plain)
    return machine.run(PROMISEBOOK_ARCHIVE=folder), ("PROMISEBOOK_ARCHIVE is %s, which is a folder" % folder, "name the file in it: " + plain)


def a_file_that_is_not_there(machine, plain, inlined):
    return machine.run(PROMISEBOOK_ARCHIVE="/nowhere.a"), ("PROMISEBOOK_ARCHIVE is /nowhere.a, and there is no such file", HELP["unset"])


def a_file_that_is_no_archive(machine, plain, inlined):
    path = write("text\n", machine.out, "text.a")
    return machine.run(PROMISEBOOK_ARCHIVE=path), (path + " is not an archive", HELP["name"])


def half_an_archive(machine, plain, inlined):
    path = write(read(plain)[:40000], machine.out, "half.a")
    return machine.run(PROMISEBOOK_ARCHIVE=path), (path + " is an archive, but not whole", HELP["name"])


def an_archive_for_another_machine(machine, plain, inlined):
    content = bytearray(read(plain))
    content[content.index(b"\x7fELF") + 18] = 183  # AArch64
    path = write(bytes(content), machine.out, "other.a")
    return machine.run(PROMISEBOOK_ARCHIVE=path), (path + " holds other code than x86-64's", HELP["name"])


def an_archive_of_another_version(machine, plain, inlined):
    path = machine.put("elsewhere", plain, version="0.1.0")
    return machine.run(PROMISEBOOK_ARCHIVE=path), (path + " does not belong to this crate: it is of version 0.1.0, and this crate of 0.2.0", HELP["version"])


def an_archive_of_other_crates(machine, plain, inlined):
    path = machine.put("elsewhere", plain, crates="0" * 64)
    return machine.run(PROMISEBOOK_ARCHIVE=path), (path + " does not belong to this crate: the crates were changed since it was made", HELP["version"])


def declarations(machine, edit):
    path = os.path.join(machine.crate, "src", "exported.rs")
    write(edit(read(path).decode()), path)


def an_archive_with_too_few_functions(machine, plain, inlined):
    declarations(machine, lambda text: text + "fn pb_u8_new(\n")
    return machine.run(PROMISEBOOK_ARCHIVE=plain), ("is of another version: it lacks 1 (pb_u8_new) of the ", HELP["version"])


def an_archive_with_too_many_functions(machine, plain, inlined):
    declarations(machine, lambda text: re.sub(r".*fn pb_u8_wrapping_(add|sub)\(.*\n", "", text))
    wrong = "is of another version: it has 2 (pb_u8_wrapping_add, ..) functions that this crate does not declare"
    return machine.run(PROMISEBOOK_ARCHIVE=plain), (wrong, HELP["version"])


def an_archive_with_other_functions(machine, plain, inlined):
    declarations(machine, lambda text: text.replace("fn pb_u8_wrapping_add(", "fn pb_u8_added("))
    return machine.run(PROMISEBOOK_ARCHIVE=plain), ("it lacks 1 (pb_u8_added) of the ", HELP["version"])


def outside_the_repository(machine, plain, inlined):
    os.remove(os.path.join(machine.repository, "crates.txt"))
    return machine.run(), ("this crate stands outside its repository, and no archive is named", "set PROMISEBOOK_ARCHIVE to the path of libpromisebook.a")


def outside_the_repository_with_an_archive(machine, plain, inlined):
    path = machine.put("elsewhere", plain, crates="0" * 64)
    os.remove(os.path.join(machine.repository, "crates.txt"))
    return machine.run(PROMISEBOOK_ARCHIVE=path), path


def other_machine(**variables):
    def case(machine, plain, inlined):
        told = machine.run(TARGET="a-target", PROMISEBOOK_ARCHIVE=plain, **{"CARGO_CFG_TARGET_" + name: value for name, value in variables.items()})
        return told, ("compiled for x86-64 and ELF, as Linux has it, and this build is for a-target", HELP["target"])

    return case


def nothing_to_inline(machine, plain, inlined):
    told = machine.run(CARGO_FEATURE_INLINED="1", PROMISEBOOK_ARCHIVE=plain)
    return told, (plain + " has machine code alone, and nothing to inline", "name libpromisebook_inlined.a")


def modules_and_an_older_rustc(machine, plain, inlined):
    machine.command("rustc", "echo 'LLVM version: 19.1.7'")
    told = machine.run(CARGO_FEATURE_INLINED="1", PROMISEBOOK_ARCHIVE=inlined)
    return told, ("wrote, and this rustc's LLVM, 19.1.7, cannot read them", "take a rustc whose LLVM is as new")


def modules_and_a_newer_rustc(machine, plain, inlined):
    machine.command("rustc", "echo 'LLVM version: 99.0.0'")
    return machine.run(CARGO_FEATURE_INLINED="1", PROMISEBOOK_ARCHIVE=inlined), inlined


def modules_and_a_rustc_that_lists_its_objects(machine, plain, inlined):
    machine.command("rustc", 'case $1 in -vV) echo "LLVM version: 22.1.2" ;; *) echo lib.rmeta-link >"$4" ;; esac')
    run = machine.run(CARGO_FEATURE_INLINED="1", PROMISEBOOK_ARCHIVE=inlined)
    warned = "cargo:warning=this rustc takes no modules from archives" in run.stdout
    return run, inlined if warned else ("cargo:warning=this rustc takes no modules from archives", "")


def machine_code_and_an_older_rustc(machine, plain, inlined):
    machine.command("rustc", "echo 'LLVM version: 19.1.7'")
    return machine.run(PROMISEBOOK_ARCHIVE=plain), plain


CASES = [
    a_named_archive, the_shipped_archive, the_shipped_archive_to_be_inlined, the_archive_in_target_where_the_shipped_one_is_old,
    none_where_the_crates_were_changed_since, none_at_all, none_of_this_version, none_that_says_what_it_was_made_from, none_whose_crates_can_be_compared,
    one_that_the_kit_writes, one_that_the_kit_fails_to_write, one_that_no_script_writes,
    an_empty_variable, a_relative_path, a_folder, a_file_that_is_not_there, a_file_that_is_no_archive, half_an_archive, an_archive_for_another_machine,
    an_archive_of_another_version, an_archive_of_other_crates,
    an_archive_with_too_few_functions, an_archive_with_too_many_functions, an_archive_with_other_functions,
    outside_the_repository, outside_the_repository_with_an_archive,
    other_machine(ARCH="aarch64"), other_machine(OS="windows"), other_machine(VENDOR="apple"), other_machine(POINTER_WIDTH="32"),
    nothing_to_inline, modules_and_an_older_rustc, modules_and_a_newer_rustc, modules_and_a_rustc_that_lists_its_objects, machine_code_and_an_older_rustc,
]  # fmt: skip


def faults(machine, run, expected):
    """What is wrong with a run: nothing, where it linked the archive that is expected, or said what is expected, in two lines of its own at the end."""
    if isinstance(expected, str):
        if run.returncode or "cargo:rustc-link-lib=static=promisebook" not in run.stdout:
            return "nothing was linked"
        return None if read(machine.out, "libpromisebook.a") == read(expected) else "another archive was linked than " + expected
    if not run.returncode or "rustc-link-lib" in run.stdout:
        return "it was not refused"
    lines = [line for line in run.stderr.split("\n") if line.startswith("promisebook: ")]
    if len(lines) != 2 or lines[1] != run.stderr.strip().split("\n")[-1]:
        return "it says other than two lines"
    return next(("it does not say: " + text for text, place in zip(expected, (run.stderr, lines[1])) if text not in place), None)


def main():
    if len(sys.argv) != 2:
        sys.exit(__doc__)
    plain = os.path.abspath(sys.argv[1])
    wrong = 0
    with tempfile.TemporaryDirectory() as folder:
        script = os.path.join(folder, "build")
        subprocess.run(["rustc", "--edition", "2021", "-o", script, os.path.join(ROOT, "bindings", "rust", "build.rs")], check=True)
        # Copies without MADE_FROM beside them: what stands there is a case of its own.
        copies = [write(read(path), folder, "archives", os.path.basename(path)) for path in (plain, plain[: -len(".a")] + "_inlined.a")]
        for number, case in enumerate(CASES):
            os.mkdir(os.path.join(folder, str(number)))
            machine = Machine(os.path.join(folder, str(number)), script)
            run, expected = case(machine, *copies)
            found = faults(machine, run, expected)
            if found:
                wrong += 1
                print("%s: %s\n%s%s" % (case.__name__, found, run.stdout, run.stderr))
    print("build.rs: %d cases, %d wrong" % (len(CASES), wrong))
    sys.exit(wrong != 0)


if __name__ == "__main__":
    main()
