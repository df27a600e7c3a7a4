"""Makes the wheel of the package, with the shared library in it, for `pip install .`. It needs Python alone, and leaves nothing here.

The library is the one that the package would load: in `out/` of the repository, or in the folder that MIRFODWEL_LIB names.
"""

import base64
import hashlib
import re
import sysconfig
import zipfile
from pathlib import Path

from mirfodwel.library import NAME, path

HERE = Path(__file__).resolve().parent
TOP = HERE.parent.parent


def version():
    """The version, which is that of the first heading of the changes."""
    return re.search(r"^## ([0-9][^\s,]*)", (TOP / "CHANGELOG.md").read_text(encoding="utf-8"), re.MULTILINE)[1]


def metadata():
    """What pip is told of the package."""
    told = dict(re.findall(r'^(\S+) = "(.*)"$', (HERE / "pyproject.toml").read_text(encoding="utf-8"), re.MULTILINE))
    head = [
        "Metadata-Version: 2.1",
        f"Name: {told['name']}",
        f"Version: {version()}",
        f"Summary: {told['description']}",
        f"Requires-Python: {told['requires-python']}",
        "License: Apache-2.0",
        "Description-Content-Type: text/markdown",
    ]
    return "\n".join([*head, "", (HERE / told["readme"]).read_text(encoding="utf-8")])


def build_wheel(wheel_directory, config_settings=None, metadata_directory=None):
    """Writes the wheel into this folder, and returns its name, as PEP 517 wants it."""
    platform = re.sub(r"[^A-Za-z0-9]", "_", sysconfig.get_platform())
    info, tag = f"mirfodwel-{version()}.dist-info", f"py3-none-{platform}"
    sources = [each for each in sorted((HERE / "mirfodwel").iterdir()) if each.suffix in (".py", ".typed")]
    files = {f"mirfodwel/{each.name}": each.read_bytes() for each in sources}
    files[f"mirfodwel/{NAME}"] = path().read_bytes()
    files[f"{info}/METADATA"] = metadata().encode()
    files[f"{info}/WHEEL"] = f"Wheel-Version: 1.0\nGenerator: build_wheel\nRoot-Is-Purelib: false\nTag: {tag}\n".encode()
    files[f"{info}/LICENSE"] = (TOP / "LICENSE").read_bytes()
    sums = {name: base64.urlsafe_b64encode(hashlib.sha256(data).digest()).rstrip(b"=").decode() for name, data in files.items()}
    record = [f"{name},sha256={sums[name]},{len(files[name])}\n" for name in files]
    files[f"{info}/RECORD"] = "".join([*record, f"{info}/RECORD,,\n"]).encode()
    wheel = f"mirfodwel-{version()}-{tag}.whl"
    with zipfile.ZipFile(Path(wheel_directory) / wheel, "w", zipfile.ZIP_DEFLATED) as archive:
        for name, data in files.items():
            entry = zipfile.ZipInfo(name)
            entry.external_attr, entry.compress_type = 0o644 << 16, zipfile.ZIP_DEFLATED
            archive.writestr(entry, data)
    return wheel
