"""Makes the wheel of the Python package, with libnumaplan.so in it, and nothing to be fetched; or its
sources alone:

    python3 wheels.py LIBRARY FOLDER
    python3 wheels.py FOLDER

or as pip does it (PEP 517), where NUMAPLAN_LIBRARY names the library. The same sources make the same
bytes. Not proved."""

import base64
import glob
import gzip
import hashlib
import io
import os
import re
import subprocess
import sys
import sysconfig
import tarfile
import zipfile

HERE = os.path.dirname(os.path.abspath(__file__))
NAME = "libnumaplan.so.0"  # (as the package looks for it in its own folder)
TOOLS = [os.path.join(HERE, folder, "machine-line") for folder in ("numaplan", "../tools")]
TOOL = next(filter(os.path.exists, TOOLS))  # (Core.from_hardware runs it)
MODULES = glob.glob(os.path.join(HERE, "numaplan", "*.py")) + [os.path.join(HERE, "numaplan", "py.typed")]
YEAR_1980 = 315532800  # (as the files of a wheel have it)


def project(key):
    """What pyproject.toml says of the package."""
    with open(os.path.join(HERE, "pyproject.toml"), encoding="utf-8") as file:
        return re.search(rf'^{key} = "(.*)"$', file.read(), re.M)[1]


def platform_of(library):
    """The wheel's platform: manylinux of the newest glibc that the library asks for, where it needs glibc
    alone; of 2.17 at least, which each pip takes."""
    machine = sysconfig.get_platform().replace("-", "_").replace(".", "_")
    said = subprocess.run(["readelf", "-dVW", library], check=True, capture_output=True, text=True).stdout
    needed = set(re.findall(r"\(NEEDED\).*\[(.*)\]", said))
    versions = [tuple(map(int, one)) for one in re.findall(r"GLIBC_(\d+)\.(\d+)", said)]
    if not versions or needed - {"libc.so.6", "libpthread.so.0", "ld-linux-x86-64.so.2"}:
        return machine
    return "manylinux_{}_{}_{}".format(*max(versions + [(2, 17)]), machine.split("_", 1)[1])


def metadata():
    lines = ["Metadata-Version: 2.1", f"Name: {project('name')}", f"Version: {project('version')}",
             f"Summary: {project('description')}", f"Requires-Python: {project('requires-python')}"]
    return "\n".join(lines) + "\n"


def package():
    """The files of the package itself, by the names that they have in it."""
    return {f"numaplan/{os.path.basename(path)}": path for path in [*MODULES, TOOL]}


def write_sources(folder):
    """Writes the sources, of which pip makes the wheel, and answers with their archive's name."""
    stem = f"{project('name')}-{project('version')}"
    parts = {**package(), **{name: os.path.join(HERE, name) for name in ("pyproject.toml", "wheels.py")}}
    with open(os.path.join(folder, f"{stem}.tar.gz"), "wb") as file, \
            gzip.GzipFile("", "wb", 9, file, 0) as packed, \
            tarfile.open(fileobj=packed, mode="w", format=tarfile.PAX_FORMAT) as sources:
        def put(name, data, mode):
            one = tarfile.TarInfo(f"{stem}/{name}")
            one.size, one.mode, one.mtime = len(data), mode, YEAR_1980
            sources.addfile(one, io.BytesIO(data))

        put("PKG-INFO", metadata().encode(), 0o644)
        for name, path in sorted(parts.items()):
            with open(path, "rb") as part:
                put(name, part.read(), 0o755 if path == TOOL else 0o644)
    return f"{stem}.tar.gz"


def write_wheel(library, folder):
    """Writes the wheel into a folder, and answers with its name."""
    tag = f"py3-none-{platform_of(library)}"
    stem = f"{project('name')}-{project('version')}"
    parts = {**package(), f"numaplan/{NAME}": library}
    texts = {
        "METADATA": metadata(),
        "WHEEL": f"Wheel-Version: 1.0\nGenerator: wheels.py\nRoot-Is-Purelib: false\nTag: {tag}\n",
    }
    record = []
    with zipfile.ZipFile(os.path.join(folder, f"{stem}-{tag}.whl"), "w", zipfile.ZIP_DEFLATED) as wheel:
        def write(name, data):
            one = zipfile.ZipInfo(name)  # (of 1980: the same sources make the same bytes)
            one.external_attr, one.compress_type = 0o644 << 16, zipfile.ZIP_DEFLATED
            wheel.writestr(one, data)

        def put(name, data):
            write(name, data)
            digest = base64.urlsafe_b64encode(hashlib.sha256(data).digest()).rstrip(b"=").decode()
            record.append(f"{name},sha256={digest},{len(data)}\n")

        for name, path in sorted(parts.items()):
            with open(path, "rb") as file:
                put(name, file.read())
        for name, text in texts.items():
            put(f"{stem}.dist-info/{name}", text.encode())
        own = f"{stem}.dist-info/RECORD"
        write(own, "".join(record) + f"{own},,\n")
    return f"{stem}-{tag}.whl"


def build_wheel(wheel_directory, config_settings=None, metadata_directory=None):
    """What pip calls."""
    library = os.environ.get("NUMAPLAN_LIBRARY")
    if not library:
        raise SystemExit("NUMAPLAN_LIBRARY has to name libnumaplan.so; './numaplan library PREFIX' makes it")
    return write_wheel(library, wheel_directory)


def build_sdist(sdist_directory, config_settings=None):
    """What pip and build call."""
    return write_sources(sdist_directory)


if __name__ == "__main__":
    if len(sys.argv) not in (2, 3):
        raise SystemExit("usage: wheels.py [LIBRARY] FOLDER")
    print(write_wheel(*sys.argv[1:]) if len(sys.argv) == 3 else write_sources(sys.argv[1]))
