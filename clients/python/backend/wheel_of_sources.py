"""Builds the wheel of the package beside this folder: what pip asks of a backend (PEP 517), with the standard library alone."""
import base64
import hashlib
import re
import zipfile
from pathlib import Path

TOP = Path(__file__).resolve().parent.parent
PROJECT = dict(re.findall(r'^([a-z-]+) = "(.*)"$', (TOP / "pyproject.toml").read_text(encoding="utf-8").partition("[project]")[2], re.MULTILINE))
FULL_NAME = f"{PROJECT['name']}-{PROJECT['version']}"
METADATA = f"""Metadata-Version: 2.1
Name: {PROJECT['name']}
Version: {PROJECT['version']}
Summary: {PROJECT['description']}
Requires-Python: {PROJECT['requires-python']}
Description-Content-Type: text/markdown

"""
WHEEL = "Wheel-Version: 1.0\nGenerator: wheel_of_sources\nRoot-Is-Purelib: true\nTag: py3-none-any\n"


def contents():
    """The name of each file of the wheel, but for the list of them, and its bytes."""
    for path in sorted((TOP / "pgguard").iterdir()):
        if path.suffix == ".py" or path.name == "py.typed":
            yield f"pgguard/{path.name}", path.read_bytes()
    readme = (TOP / PROJECT["readme"]).read_text(encoding="utf-8")
    yield f"{FULL_NAME}.dist-info/METADATA", (METADATA + readme).encode("utf-8")
    yield f"{FULL_NAME}.dist-info/WHEEL", WHEEL.encode("utf-8")


def build_wheel(wheel_directory, config_settings=None, metadata_directory=None):
    name, record = f"{FULL_NAME}-py3-none-any.whl", f"{FULL_NAME}.dist-info/RECORD"
    rows = []
    with zipfile.ZipFile(Path(wheel_directory) / name, "w", zipfile.ZIP_DEFLATED) as wheel:
        for file, content in contents():
            # The files' own times would give other bytes for the same sources.
            wheel.writestr(zipfile.ZipInfo(file), content)
            digest = base64.urlsafe_b64encode(hashlib.sha256(content).digest()).rstrip(b"=").decode("ascii")
            rows.append(f"{file},sha256={digest},{len(content)}\n")
        wheel.writestr(zipfile.ZipInfo(record), "".join(rows) + f"{record},,\n")
    return name


def get_requires_for_build_wheel(config_settings=None):
    return []
