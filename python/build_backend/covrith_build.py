"""Builds the package covrith for pip (PEP 517 and 660) with the standard library alone: a wheel has the shared library inside.

The library is the one beside the modules, as in an unpacked source archive, or else that of the repository, which tools/sharedlib
writes, and proves first where it must.
"""

import base64
import hashlib
import io
import pathlib
import re
import subprocess
import sysconfig
import tarfile
import zipfile

HERE = pathlib.Path(__file__).resolve().parent.parent
OLDER = ["covrith_curves.py", "covrith_lists.py", "covrith_names.py", "covrith_report.py"]
LIBRARY = "covrith/libcovrith.so"


def version():
    return re.search(r'^__version__ = "(.*)"$', (HERE / "covrith/__init__.py").read_text(), re.M)[1]


def metadata():
    lines = ["Metadata-Version: 2.1", "Name: covrith", f"Version: {version()}"]
    lines += ["Summary: Runs of block models on the proved engine Covrith", "Requires-Python: >=3.8"]
    return ("\n".join(lines) + "\n").encode()


def library():
    beside = HERE / LIBRARY
    if beside.exists():
        return beside.read_bytes()
    tool = HERE.parent / "tools/sharedlib"
    if not tool.exists():
        raise RuntimeError(f"neither {beside} nor {tool} is there: build from the repository or from its source archive")
    subprocess.run([str(tool)], check=True)
    return (HERE.parent / "target/sharedlib/libcovrith.so").read_bytes()


def modules():
    """the files of the package, without the library"""
    names = [f"covrith/{path.name}" for path in sorted((HERE / "covrith").iterdir()) if path.suffix == ".py" or path.name == "py.typed"]
    return {name: (HERE / name).read_bytes() for name in [*names, *OLDER]}


def wheel(folder, files, tag):
    """writes a wheel; the same files give the same bytes"""
    info = f"covrith-{version()}.dist-info"
    files = {
        **files,
        f"{info}/METADATA": metadata(),
        f"{info}/WHEEL": f"Wheel-Version: 1.0\nGenerator: covrith_build\nRoot-Is-Purelib: false\nTag: {tag}\n".encode(),
    }
    record = ""
    for name, data in files.items():
        sum_ = base64.urlsafe_b64encode(hashlib.sha256(data).digest()).rstrip(b"=").decode()
        record += f"{name},sha256={sum_},{len(data)}\n"
    files[f"{info}/RECORD"] = (record + f"{info}/RECORD,,\n").encode()
    name = f"covrith-{version()}-{tag}.whl"
    with zipfile.ZipFile(pathlib.Path(folder) / name, "w", zipfile.ZIP_DEFLATED) as out:
        for path, data in files.items():
            entry = zipfile.ZipInfo(path)
            entry.compress_type = zipfile.ZIP_DEFLATED
            entry.external_attr = (0o100755 if path == LIBRARY else 0o100644) << 16
            out.writestr(entry, data)
    return name


def platform_tag():
    return "py3-none-" + re.sub(r"[^\w]", "_", sysconfig.get_platform())


def build_wheel(wheel_directory, config_settings=None, metadata_directory=None):
    return wheel(wheel_directory, {**modules(), LIBRARY: library()}, platform_tag())


def build_editable(wheel_directory, config_settings=None, metadata_directory=None):
    library()
    return wheel(wheel_directory, {"covrith.pth": f"{HERE}\n".encode()}, platform_tag())


def build_sdist(sdist_directory, config_settings=None):
    top = f"covrith-{version()}"
    files = {**modules(), LIBRARY: library(), "PKG-INFO": metadata()}
    for name in ("pyproject.toml", "build_backend/covrith_build.py"):
        files[name] = (HERE / name).read_bytes()
    with tarfile.open(pathlib.Path(sdist_directory) / f"{top}.tar.gz", "w:gz", format=tarfile.PAX_FORMAT) as out:
        for name, data in files.items():
            entry = tarfile.TarInfo(f"{top}/{name}")
            entry.size = len(data)
            entry.mode = 0o644
            out.addfile(entry, io.BytesIO(data))
    return f"{top}.tar.gz"
