"""The header's calls are the archive's, the shared library's and the Rust package's, by name, and in Rust by type and parameter; every function of the
header that answers a number is marked; and the versions agree, that of the archive's own byte too: names.py ARCHIVE SHARED"""
import re
import subprocess
import sys

from library import ROOT, TYPES, declared, header


def symbols(kind, *command):
    lines = subprocess.check_output(["nm", "--defined-only", *command], text=True).splitlines()
    return sorted(line.split()[2] for line in lines if len(line.split()) == 3 and line.split()[1] == kind)


def package():
    text = (ROOT / "rust" / "src" / "ffi.rs").read_text()
    calls = re.findall(r"pub fn (taxolbin_\w+)\(([^;]*?)\)\s*->\s*u32;", text)
    return {name: [tuple(p.strip().split(": ")) for p in parameters.split(",") if p.strip()] for name, parameters in calls}


def unmarked():
    return re.findall(r"^(?!TAXOLBIN_MUST_USE).*\buint32_t (taxolbin_\w+)\(", header(), re.M)


def main():
    archive, shared = sys.argv[1:]
    calls = declared()
    wrong = []
    version = re.search(r'^#define TAXOLBIN_VERSION "(.*)"$', header(), re.M).group(1)
    mark = "taxolbin_version_" + "_".join(version.split(".")[:2])
    for where in [archive], ["-D", shared]:
        if symbols("T", *where) != sorted(calls):
            wrong.append(f"{where}: {sorted(set(symbols('T', *where)) ^ set(calls))}")
        if symbols("R", *where) != [mark]:
            wrong.append(f"{where}: {symbols('R', *where)}, not {mark}")
    ours = {name: [(parameter, TYPES[kind.strip()][1]) for kind, parameter in parameters] for name, parameters in calls.items()}
    theirs = package()
    wrong += [f"Rust: {name}: {theirs.get(name)}, not {ours.get(name)}" for name in sorted(ours.keys() | theirs.keys()) if ours.get(name) != theirs.get(name)]
    wrong += [f"not marked: {name}" for name in unmarked()]
    if f"static {mark}: u8;" not in (ROOT / "rust" / "src" / "ffi.rs").read_text():
        wrong.append(f"rust/src/ffi.rs does not ask for {mark}")
    if f'\nversion = "{version}"\n' not in (ROOT / "rust" / "Cargo.toml").read_text():
        wrong.append(f"rust/Cargo.toml has not the version {version}")
    if f"\n## {version}\n" not in (ROOT / "CHANGELOG.md").read_text():
        wrong.append(f"CHANGELOG.md does not begin with {version}")
    print(f"{len(calls)} calls, version {version}")
    sys.exit("\n".join(wrong) or 0)


main()
