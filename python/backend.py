"""Makes the wheel that pip installs, with Python's standard library alone (PEP 517): the package, and the proved library if
tools/lukhandro has made it."""
import base64
import hashlib
import os
import re
import zipfile
from pathlib import Path

HERE = Path(__file__).resolve().parent
LIBRARY = Path(os.environ.get("LUKHANDRO_LIBRARY") or HERE.parent / "target" / "desk" / "liblukhandro.so")


def _field(name):
    """A field of [project] in pyproject.toml that is one line of text."""
    found = re.search(rf'^{name} = "(.*)"$', (HERE / "pyproject.toml").read_text(encoding="utf8"), re.MULTILINE)
    if found is None:
        raise RuntimeError(f"pyproject.toml has no field {name}")
    return found.group(1)


def _tag():
    """The wheel holds the library and so is of its machine, or is of any."""
    return "py3-none-linux_x86_64" if LIBRARY.is_file() else "py3-none-any"


def _sources():
    """The pages of the package, and the parts of the sheet in a browser."""
    return sorted(path.relative_to(HERE).as_posix() for pages in ("*.py", "page/*") for path in (HERE / "lukhandro").glob(pages))


def _members():
    """What goes into the wheel: names and bytes."""
    found = {name: (HERE / name).read_bytes() for name in _sources()}
    if LIBRARY.is_file():
        found["lukhandro/liblukhandro.so"] = LIBRARY.read_bytes()
    name, version = _field("name"), _field("version")
    info = f"{name}-{version}.dist-info"
    found[f"{info}/METADATA"] = (f"Metadata-Version: 2.1\nName: {name}\nVersion: {version}\nSummary: {_field('description')}\n"
                                 f"Requires-Python: {_field('requires-python')}\n").encode()
    found[f"{info}/WHEEL"] = (f"Wheel-Version: 1.0\nGenerator: backend\nRoot-Is-Purelib: {str(not LIBRARY.is_file()).lower()}\n"
                              f"Tag: {_tag()}\n").encode()
    found[f"{info}/entry_points.txt"] = b"[console_scripts]\nlukhandro = lukhandro.command:main\n"
    return info, found


def build_wheel(wheel_directory, config_settings=None, metadata_directory=None):
    """Writes the wheel; answers its name."""
    info, members = _members()
    record = []
    wheel = f"{_field('name')}-{_field('version')}-{_tag()}.whl"
    with zipfile.ZipFile(os.path.join(wheel_directory, wheel), "w", zipfile.ZIP_DEFLATED) as room:
        for name, data in members.items():
            digest = base64.urlsafe_b64encode(hashlib.sha256(data).digest()).rstrip(b"=").decode()
            record.append(f"{name},sha256={digest},{len(data)}\n")
            room.writestr(name, data)
        record.append(f"{info}/RECORD,,\n")
        room.writestr(f"{info}/RECORD", "".join(record))
    return wheel


def build_sdist(sdist_directory, config_settings=None):
    """A source archive of the folder."""
    import tarfile
    base = f"{_field('name')}-{_field('version')}"
    with tarfile.open(os.path.join(sdist_directory, base + ".tar.gz"), "w:gz") as room:
        for path in ["pyproject.toml", "backend.py", "README.md", *_sources()]:
            room.add(HERE / path, f"{base}/{path}")
    return base + ".tar.gz"
