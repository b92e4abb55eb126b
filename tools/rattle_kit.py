"""rattle_kit: the toolchain by links, with a script before its compiler that keeps the intermediate code which the compiler is given. The compiler then makes of
it what it always does. `python3 tools/rattle_kit.py FOLDER` makes one in FOLDER, and prints where it is and where the compiler is. Of all code that is compiled
by it the largest is kept, as FOLDER/kept.bc (`rt try` compiles a few lines of its own first), and as FOLDER/kept.words what the compiler was told of the machine and
of its own working, a word a line: all but the places, and for whom and how well it compiles."""
import os
import shlex
import shutil
import sys

KEEPING = r"""#!/bin/sh
for word; do
    case $word in *.bc)
        if [ ! -e {out}/kept.bc ] || [ "$(wc -c <"$word")" -gt "$(wc -c <{out}/kept.bc)" ]; then
            cp "$word" {out}/kept.bc
            printf '%s\n' "$@" | sed '/^--sysroot=/d; /^-c$/,$d' >{out}/kept.words
        fi ;;
    esac
done
exec {clang} "$@"
"""


def linked(folder, real, *but):
    """A folder with links to all that the real one has, but for some names."""
    os.makedirs(folder)
    for name in os.listdir(real):
        if name not in but:
            os.symlink(f"{real}/{name}", f"{folder}/{name}")


def kit(out):
    """A toolchain in a new folder `out`/kit, and the compiler itself."""
    real, own = os.path.dirname(os.path.dirname(os.path.realpath(shutil.which("rt")))), out + "/kit"
    shutil.rmtree(own, ignore_errors=True)
    linked(own, real, "bin", "toolchain")
    # rt takes the folder that its own file stands in for the toolchain's, so of its two files there are copies
    linked(own + "/bin", real + "/bin", "rt", "rtlib.py")
    for name in ("rt", "rtlib.py"):
        shutil.copy(f"{real}/bin/{name}", f"{own}/bin/{name}")
    linked(own + "/toolchain", real + "/toolchain", "bin")
    linked(own + "/toolchain/bin", real + "/toolchain/bin", "clang")
    clang, script = f"{real}/toolchain/bin/clang", f"{own}/toolchain/bin/clang"
    with open(script, "w") as f:
        f.write(KEEPING.format(out=shlex.quote(out), clang=shlex.quote(clang)))
    os.chmod(script, 0o755)
    return own, clang


if __name__ == "__main__":
    print(*kit(os.path.abspath(sys.argv[1])), sep="\n")
