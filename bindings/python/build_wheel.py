"""Builds the package's wheel for pip (PEP 517), with nothing but Python: it needs no network and no other package, and
writes nothing in this folder."""

import base64
import hashlib
import os
import re
import zipfile

HERE = os.path.dirname(os.path.abspath(__file__))
TAG = "py3-none-any"


def facts():
    """What pyproject.toml says of the project, such as its name and version."""
    with open(f"{HERE}/pyproject.toml", encoding="utf-8") as file:
        project = file.read().partition("[project]\n")[2].partition("\n[")[0]
    return dict(re.findall(r'^([\w-]+) = "(.*)"$', project, re.M))


def line(name, data):
    """A line of the record of files."""
    digest = base64.urlsafe_b64encode(hashlib.sha256(data).digest()).rstrip(b"=").decode()
    return f"{name},sha256={digest},{len(data)}\n"


def files(told):
    """The files of the wheel, each with its bytes."""
    found = {}
    for name in sorted(os.listdir(f"{HERE}/likes")):
        if name.endswith((".py", ".typed")):
            with open(f"{HERE}/likes/{name}", "rb") as file:
                found[f"likes/{name}"] = file.read()
    with open(f"{HERE}/README.md", "rb") as file:
        readme = file.read().decode()
    head = {"Name": told["name"], "Version": told["version"], "Summary": told["description"]}
    head |= {"Requires-Python": told["requires-python"], "Description-Content-Type": "text/markdown"}
    metadata = "Metadata-Version: 2.1\n" + "".join(f"{name}: {text}\n" for name, text in head.items()) + f"\n{readme}"
    wheel = f"Wheel-Version: 1.0\nGenerator: build_wheel\nRoot-Is-Purelib: true\nTag: {TAG}\n"
    info = f"{told['name']}-{told['version']}.dist-info"
    found |= {f"{info}/METADATA": metadata.encode(), f"{info}/WHEEL": wheel.encode()}
    record = "".join(line(name, data) for name, data in found.items()) + f"{info}/RECORD,,\n"
    return {**found, f"{info}/RECORD": record.encode()}


def build_wheel(wheel_directory, config_settings=None, metadata_directory=None):
    told = facts()
    name = f"{told['name']}-{told['version']}-{TAG}.whl"
    with zipfile.ZipFile(f"{wheel_directory}/{name}", "w", zipfile.ZIP_DEFLATED) as wheel:
        for place, data in files(told).items():
            wheel.writestr(zipfile.ZipInfo(place, (1980, 1, 1, 0, 0, 0)), data)
    return name
