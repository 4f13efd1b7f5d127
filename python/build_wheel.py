"""The build of the package's wheel, as `pip install ./python` and `pip wheel ./python` call it (PEP 517). It needs no other package.

If the kit's `rt` is there it runs `clib/build --draft`, which takes the proved library if it was built from exactly this tree, and else compiles one
without proofs and says so. Without the kit it takes the clib/libtapebox.so that clib/build left. $TAPEBOX_LIBRARY names another library to take. The wheel holds it, so whoever installs the wheel needs neither kit nor
compiler. Its tag is that of the C library that it needs.
"""

import base64
import hashlib
import os
import platform
import re
import shutil
import subprocess
import tomllib
import zipfile
from pathlib import Path

HERE = Path(__file__).resolve().parent
CLIB = HERE.parent / "clib"
# A wheel for an older C library than this is not asked for.
GLIBC_LEAST = (2, 17)
# So that the same files make the same wheel.
MOMENT = (1980, 1, 1, 0, 0, 0)


class UnsupportedOperation(Exception):
    """What this build does not make."""


def built_library() -> Path:
    """Where the library is that goes into the wheel."""
    if named := os.environ.get("TAPEBOX_LIBRARY"):
        return Path(named)
    library = CLIB / "libtapebox.so"
    if shutil.which("rt"):
        subprocess.run([CLIB / "build", "--draft"], check=True)
    if not library.exists():
        raise FileNotFoundError(f"{library}: clib/build makes it, if the kit is there; or $TAPEBOX_LIBRARY names another")
    return library


def platform_tag(library: Path) -> str:
    """The platforms that the library is for: those with the C library that it needs, the one library that it may need."""
    dynamic = subprocess.run(["readelf", "-d", library], check=True, capture_output=True, text=True).stdout
    needed = re.findall(r"\(NEEDED\).*\[(.*)\]", dynamic)
    if needed != ["libc.so.6"]:
        raise ValueError(f"{library} needs {' '.join(needed) or 'nothing'}, and not the C library alone")
    versions = re.findall(rb"\0GLIBC_(\d+)\.(\d+)(?=[.\0])", library.read_bytes())
    major, minor = max(GLIBC_LEAST, *(tuple(map(int, version)) for version in versions))
    return f"manylinux_{major}_{minor}_{platform.machine()}"


def metadata(project: dict) -> str:
    """The package's METADATA."""
    lines = ["Metadata-Version: 2.1", f"Name: {project['name']}", f"Version: {project['version']}", f"Summary: {project['description']}"]
    lines.append(f"Requires-Python: {project['requires-python']}")
    for extra, names in project["optional-dependencies"].items():
        lines.append(f"Provides-Extra: {extra}")
        lines += [f'Requires-Dist: {name}; extra == "{extra}"' for name in names]
    return "\n".join([*lines, "Description-Content-Type: text/markdown", "", (HERE / project["readme"]).read_text(encoding="utf-8")])


def record_line(name: str, content: bytes) -> str:
    """A file's line in the RECORD."""
    digest = base64.urlsafe_b64encode(hashlib.sha256(content).digest()).rstrip(b"=").decode()
    return f"{name},sha256={digest},{len(content)}\n"


def build_wheel(wheel_directory: str, config_settings: object = None, metadata_directory: str | None = None) -> str:
    """Writes the wheel into a folder, and gives its name."""
    project, library = tomllib.loads((HERE / "pyproject.toml").read_text(encoding="utf-8"))["project"], built_library()
    tag, name = f"py3-none-{platform_tag(library)}", f"{project['name']}-{project['version']}"
    files = {f"tapebox/{path.name}": path.read_bytes() for path in sorted((HERE / "tapebox").iterdir()) if path.suffix in (".py", ".typed")}
    files["tapebox/libtapebox.so"] = library.read_bytes()
    files[f"{name}.dist-info/METADATA"] = metadata(project).encode()
    files[f"{name}.dist-info/WHEEL"] = f"Wheel-Version: 1.0\nGenerator: build_wheel\nRoot-Is-Purelib: false\nTag: {tag}\n".encode()
    record = f"{name}.dist-info/RECORD"
    files[record] = ("".join(record_line(*file) for file in files.items()) + f"{record},,\n").encode()
    with zipfile.ZipFile(Path(wheel_directory, f"{name}-{tag}.whl"), "w", zipfile.ZIP_DEFLATED) as wheel:
        for file, content in files.items():
            info = zipfile.ZipInfo(file, MOMENT)
            info.compress_type, info.external_attr = zipfile.ZIP_DEFLATED, 0o644 << 16
            wheel.writestr(info, content)
    return f"{name}-{tag}.whl"


def build_sdist(sdist_directory: str, config_settings: object = None) -> str:
    """There is none: the library is built of the repository, which the package is a folder of."""
    raise UnsupportedOperation("the sources are the repository")
