#!/usr/bin/env python3
"""Takes the library as a new user would: in an empty environment, with another home and no toolchain in PATH.

    python3 tools/try_packages.py [NAME ..]

In a copy of the files that git has, and of `rust/dist/`, each of rust, package, c, cmake, python and program is built and prints a union. What a
machine lacks (cargo, cmake, pip) is left out, and named. Prints the seconds of each, and ends with 1 where one fails.
"""
import os
import pathlib
import shutil
import subprocess
import sys
import tempfile
import time

TOP = pathlib.Path(__file__).resolve().parent.parent
SQUARES = "S 0 0 4 0 4 4 0 4\nC 2 2 6 2 6 6 2 6\n"
UNION = "0 4 0 0 4 0 4 2 6 2 6 6 2 6 2 4"
POINTS = [tuple(map(int, UNION.split()[at : at + 2])) for at in range(0, 16, 2)]

OF_C = """#include <fadrinzo.h>
#include <stdio.h>

int main()
{
    const int32_t one[] = {0, 0, 4, 0, 4, 4, 0, 4}, other[] = {2, 2, 6, 2, 6, 6, 2, 6};
    fadrinzo *overlay = fadrinzo_new();
    if (!overlay || fadrinzo_add_contour(overlay, FADRINZO_SUBJECT, one, 4) || fadrinzo_add_contour(overlay, FADRINZO_CLIP, other, 4)
        || fadrinzo_overlay(overlay, FADRINZO_RULE_UNION, FADRINZO_FILL_NON_ZERO))
        return 1;
    fadrinzo_result found = fadrinzo_get(overlay);
    for (size_t i = 0; i < 2 * found.points; i++)
        printf("%s%d", i ? " " : "", found.xy[i]);
    puts("");
    fadrinzo_free(overlay);
    return 0;
}
"""
OF_CXX = """#include <fadrinzo.hpp>
#include <iostream>

int main()
{
    using namespace fadrinzo;
    Overlay overlay;
    overlay.add_contour(ShapeType::Subject, {{0, 0}, {4, 0}, {4, 4}, {0, 4}});
    overlay.add_contour(ShapeType::Clip, {{2, 2}, {6, 2}, {6, 6}, {2, 6}});
    for (const Contour &contour : overlay.overlay(OverlayRule::Union, FillRule::NonZero))
        for (auto [x, y] : contour)
            std::cout << x << ' ' << y << ' ';
    std::cout << std::endl;
}
"""
OF_RUST = """use fadrinzo::{square, Error, FillRule, Overlay, OverlayRule};
fn main() -> Result<(), Error> {
    let mut overlay = Overlay::with_contours(&[square(0, 4)], &[square(2, 6)])?;
    let numbers = overlay.overlay(OverlayRule::Union, FillRule::NonZero)?[0].iter().map(|at| format!("{} {}", at.x, at.y)).collect::<Vec<_>>();
    println!("{}", numbers.join(" "));
    Ok(())
}
"""
OF_CMAKE = """cmake_minimum_required(VERSION 3.13)
project(user LANGUAGES C CXX)
find_package(fadrinzo 0.2 REQUIRED)
add_executable(user_c user.c)
add_executable(user_cpp user.cpp)
set_target_properties(user_cpp PROPERTIES CXX_STANDARD 17 CXX_STANDARD_REQUIRED ON CXX_EXTENSIONS OFF)
add_executable(user_hpp user_hpp.cpp)
target_compile_features(user_hpp PRIVATE cxx_std_17)
foreach(it user_c user_cpp user_hpp)
    target_compile_options(${it} PRIVATE -Wall -Wextra -Werror)
    target_link_libraries(${it} PRIVATE fadrinzo::fadrinzo)
endforeach()
"""
OF_PYTHON = """from fadrinzo import overlay
(boundary, holes), = overlay([[(0, 0), (4, 0), (4, 4), (0, 4)]], [[(2, 2), (6, 2), (6, 6), (2, 6)]], "union")
print(*(number for point in boundary for number in point))
"""
OF_VERSION = """import fadrinzo, importlib.metadata, pathlib
assert fadrinzo.__version__ == importlib.metadata.version("fadrinzo") and pathlib.Path(fadrinzo.__file__).with_name("py.typed").is_file()
"""


class Room:
    """A folder with a copy of the repository, and commands in it that see nothing else."""

    def __init__(self, folder):
        self.folder, self.tree = pathlib.Path(folder), pathlib.Path(folder, "tree")
        copy_files(self.tree)
        (self.folder / "home").mkdir()
        tools = {os.path.dirname(os.path.realpath(it)) for it in map(shutil.which, ("cargo", "cc", sys.executable, "cmake")) if it}
        # a tool may be a link to a program that looks at its own name, so both places are in PATH
        found = {os.path.dirname(it) for it in map(shutil.which, ("cargo", "rustc", "cc", "cmake")) if it}
        path = [it for it in dict.fromkeys([*found, *tools, "/usr/bin", "/bin"]) if not os.path.exists(f"{it}/rt")]
        self.environment = {"HOME": str(self.folder / "home"), "PATH": ":".join(path), "LC_ALL": "C.UTF-8"}
        for name in ("RUSTUP_HOME", "RUSTUP_TOOLCHAIN"):
            # where rustup keeps its compilers, which another home does not have
            value = os.environ.get(name) or (os.path.expanduser("~/.rustup") if name == "RUSTUP_HOME" else None)
            if value and (name != "RUSTUP_HOME" or os.path.isdir(value)):
                self.environment[name] = value

    def run(self, *words, folder=".", given=None):
        """Runs a command, and returns what it prints; raises where it fails."""
        done = subprocess.run([str(it) for it in words], cwd=self.tree / folder, env=self.environment, input=given, capture_output=True, text=True, check=False)
        if done.returncode:
            raise RuntimeError(f"{' '.join(map(str, words))}: status {done.returncode}\n{done.stdout[-2000:]}{done.stderr[-2000:]}")
        return done.stdout

    def write(self, name, text):
        path = self.folder / name
        path.parent.mkdir(parents=True, exist_ok=True)
        path.write_text(text, encoding="utf-8")
        return path


def copy_files(to):
    """Copies the files that git has or would take, and those of `rust/dist/`; without git, all but what is made."""
    listed = subprocess.run(["git", "ls-files", "-co", "--exclude-standard"], cwd=TOP, capture_output=True, text=True, check=False)
    names = {it for it in listed.stdout.splitlines() if it.split("/")[0] not in ("crates", "docs", "bench")}
    if not names:
        parts = ("c", "python", "rust", "LICENSE", "LICENSE-MIT", "LICENSE-APACHE", "NOTICE", "examples")
        found = (it for part in parts for it in ([TOP / part] if (TOP / part).is_file() else (TOP / part).rglob("*")))
        names = {str(it.relative_to(TOP)) for it in found if not {"target", "out", "__pycache__"}.intersection(it.parts) and (it.is_file() or it.is_symlink())}
    names |= {f"rust/dist/{it.name}" for it in (TOP / "rust/dist").iterdir()}
    for name in names:
        if os.path.lexists(TOP / name) and not (TOP / name).is_dir() or (TOP / name).is_symlink():
            (to / name).parent.mkdir(parents=True, exist_ok=True)
            shutil.copy2(TOP / name, to / name, follow_symlinks=False)


def expect(found, wanted=UNION):
    """Fails where a command has printed something else."""
    if wanted not in found.strip():
        raise RuntimeError(f"printed {found!r}, and not {wanted!r}")


def rust(room):
    expect(room.run("cargo", "run", "--offline", "--quiet", "--example", "union", folder="rust"), "[[0, 4], [0, 0], [4, 0], [4, 2], [6, 2], [6, 6], [2, 6], [2, 4]]")


def package(room):
    """The packed crate, unpacked elsewhere, in a program of its own."""
    room.run("cargo", "package", "--offline", "--allow-dirty", "--no-verify", "--quiet", folder="rust")
    (packed,) = (room.tree / "rust/target/package").glob("*.crate")
    apart = room.folder / "apart"
    apart.mkdir()
    room.run("tar", "-xzf", packed, "-C", apart)
    (folder,) = apart.iterdir()
    room.write("user/src/main.rs", OF_RUST)
    room.write("user/Cargo.toml", f'[package]\nname = "user"\nversion = "0.1.0"\nedition = "2021"\n[dependencies]\nfadrinzo = {{ path = "{folder}" }}\n'
               '[profile.release]\nlto = "fat"\ncodegen-units = 1\npanic = "abort"\n[workspace]\n')
    expect(room.run("cargo", "run", "--offline", "--quiet", "--release", folder=room.folder / "user"))


def c(room):
    prefix = room.folder / "prefix"
    room.run("make", "-C", "c", "install", f"PREFIX={prefix}")
    program = room.write("user_c/user.c", OF_C)
    flags = ["-std=c11", "-Wall", "-Wextra", "-Werror"]
    shared = room.folder / "user_c/shared"
    room.run("cc", *flags, f"-I{prefix}/include", program, "-o", shared, f"-L{prefix}/lib", "-lfadrinzo", f"-Wl,-rpath,{prefix}/lib")
    static = room.folder / "user_c/static"
    room.run("cc", *flags, f"-I{prefix}/include", program, "-o", static, f"{prefix}/lib/libfadrinzo.a")
    for it in (shared, static):
        expect(room.run(it))
    if "libfadrinzo.so.1" not in room.run("ldd", shared):
        raise RuntimeError("the shared library has no version in its name")
    if shutil.which("pkg-config"):
        room.environment["PKG_CONFIG_PATH"] = f"{prefix}/lib/pkgconfig"
        words = room.run("pkg-config", "--cflags", "--libs", "fadrinzo").split()
        room.run("cc", *flags, program, "-o", shared, *words, f"-Wl,-rpath,{prefix}/lib")
        expect(room.run(shared))
        if shutil.which("c++"):
            header = room.write("user_c/user.cpp", OF_CXX)
            room.run("c++", "-std=c++17", "-Wall", "-Wextra", "-Werror", header, "-o", shared, *words, f"-Wl,-rpath,{prefix}/lib")
            expect(room.run(shared))


def cmake(room):
    for kind in ("OFF", "ON"):
        prefix, made, user = (room.folder / f"cmake{kind}/{it}" for it in ("prefix", "made", "user"))
        room.run("cmake", "-S", "c", "-B", made, f"-DBUILD_SHARED_LIBS={kind}", f"-DCMAKE_INSTALL_PREFIX={prefix}", "-DCMAKE_INSTALL_LIBDIR=lib")
        room.run("cmake", "--build", made, "--target", "install")
        for name, text in [("user.c", OF_C.replace("main()", "main(void)")), ("user.cpp", OF_C), ("user_hpp.cpp", OF_CXX), ("CMakeLists.txt", OF_CMAKE)]:
            room.write(f"cmake{kind}/user/{name}", text)
        room.run("cmake", "-S", user, "-B", user / "made", f"-DCMAKE_PREFIX_PATH={prefix}")
        room.run("cmake", "--build", user / "made")
        for it in ("user_c", "user_cpp", "user_hpp"):
            expect(room.run(user / "made" / it))


def python(room):
    packages = room.folder / "packages"
    pip = [sys.executable, "-m", "pip", "install", "--quiet", "--no-index", "--disable-pip-version-check"]
    room.run(*pip, "--target", packages, "./python")
    program = room.write("user_python/user.py", OF_PYTHON)
    room.environment["PYTHONPATH"] = str(packages)
    expect(room.run(sys.executable, program, folder=room.folder / "home"))
    room.run(sys.executable, "-c", OF_VERSION, folder=room.folder / "home")
    done = room.run(sys.executable, "-m", "fadrinzo", "union", "-", folder=room.folder / "home", given="POLYGON ((0 0, 4 0, 4 4, 0 4))\n")
    expect(done, "MULTIPOLYGON (((0 4, 0 0, 4 0, 4 4, 0 4)))")
    check_wheels(room, pip, program)


def check_wheels(room, pip, program):
    """Two wheels of one tree are the same; one is installed without a compiler, and the package of sources with one."""
    wheels = []
    for number in range(2):
        folder = room.folder / f"wheel{number}"
        folder.mkdir()
        room.run(sys.executable, "wheel_of_package.py", folder, folder="python")
        wheels += folder.iterdir()
    if wheels[0].read_bytes() != wheels[1].read_bytes():
        raise RuntimeError("two wheels of one tree differ")
    room.run(sys.executable, "-c", f"import wheel_of_package as it; it.build_sdist({str(room.folder)!r})", folder="python")
    (sources,) = room.folder.glob("*.tar.gz")
    for packed, compiler in ((wheels[0], "false"), (sources, "cc")):
        packages = room.folder / f"packages_{compiler}"
        room.environment.update(CC=compiler, PYTHONPATH=str(packages))
        room.run(*pip, "--target", packages, packed, folder=room.folder / "home")
        expect(room.run(sys.executable, program, folder=room.folder / "home"))


def program(room):
    room.run("make", "-C", "c", "polygons", f"OUT={room.folder}/program")
    expect(room.run(f"{room.folder}/program/polygons", "rule=union", given=SQUARES), f"contour {UNION}")
    expect(room.run(f"{room.folder}/program/polygons", "help"), "polygons rule=")


NEEDS = {rust: ["cargo"], package: ["cargo"], c: ["cc", "make"], cmake: ["cmake", "c++"], python: ["cc"], program: ["cc", "make"]}


def main(names):
    failed = 0
    for part, needs in NEEDS.items():
        if names and part.__name__ not in names:
            continue
        lacking = [it for it in needs if not shutil.which(it)]
        if part is python and subprocess.run([sys.executable, "-m", "pip", "--version"], capture_output=True, check=False).returncode:
            lacking.append("pip")
        if lacking:
            print(f"{part.__name__} was not tried: there is no {lacking[0]}")
            continue
        with tempfile.TemporaryDirectory(prefix="try-packages-") as folder:
            room = Room(folder)
            start = time.time()
            try:
                part(room)
                print(f"{part.__name__}: a union in {time.time() - start:.1f} s", flush=True)
            except RuntimeError as error:
                failed += 1
                print(f"{part.__name__} FAILED: {error}", flush=True)
    return 1 if failed else 0


if __name__ == "__main__":
    if any(it.startswith("-") for it in sys.argv[1:]):
        sys.exit(__doc__)
    sys.exit(main(sys.argv[1:]))
