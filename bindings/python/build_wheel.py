"""Builds the wheel of this package for pip, with the proved library inside. It takes nothing but Python's own library,
so that it works with no network (PEP 517; the form of a wheel is PEP 427's)."""
import base64
import hashlib
import os
import tomllib
import zipfile

PACKAGE = "tellwydar"
LIBRARY = f"{PACKAGE}/libtellwydar.so"
TAG = "py3-none-linux_x86_64"


def files():
    """The files of the package: its modules, its mark for type checkers, and the library."""
    if not os.path.isfile(LIBRARY):
        raise SystemExit(f"{LIBRARY} is not there: `tools/install --library` at the top of the repository builds it, "
                         f"and then `pip install ~/.local/share/{PACKAGE}/python` has it")
    for folder, _, names in sorted(os.walk(PACKAGE)):
        for name in sorted(names):
            if name.endswith((".py", ".so")) or name == "py.typed":
                yield os.path.join(folder, name)


def row(name: str, data: bytes) -> str:
    """The line of a file in the record of a wheel."""
    sum = base64.urlsafe_b64encode(hashlib.sha256(data).digest()).rstrip(b"=").decode()
    return f"{name},sha256={sum},{len(data)}\n"


def build_wheel(wheel_directory, config_settings=None, metadata_directory=None):
    with open("pyproject.toml", "rb") as file:
        project = tomllib.load(file)["project"]
    about = f"{PACKAGE}-{project['version']}.dist-info"
    content = {name: open(name, "rb").read() for name in files()}
    content[f"{about}/WHEEL"] = (
        f"Wheel-Version: 1.0\nGenerator: {PACKAGE}\nRoot-Is-Purelib: false\nTag: {TAG}\n"
    ).encode()
    content[f"{about}/METADATA"] = (
        f"Metadata-Version: 2.1\nName: {PACKAGE}\nVersion: {project['version']}\nSummary: {project['description']}\n"
        f"Requires-Python: {project['requires-python']}\nProvides-Extra: net\nRequires-Dist: pyzmq; extra == \"net\"\n"
    ).encode()
    record = "".join(row(name, data) for name, data in content.items()) + f"{about}/RECORD,,\n"
    name = f"{PACKAGE}-{project['version']}-{TAG}.whl"
    with zipfile.ZipFile(os.path.join(wheel_directory, name), "w", zipfile.ZIP_DEFLATED) as wheel:
        for path, data in [*content.items(), (f"{about}/RECORD", record.encode())]:
            wheel.writestr(path, data)
    return name
