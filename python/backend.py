"""Makes the wheel of the module for pip, without any package besides Python (PEP 517).

The names and the version are those of pyproject.toml.
"""

import base64
import hashlib
import os
import re
import zipfile

HERE = os.path.dirname(os.path.abspath(__file__))
MODULE = ("gihandop/__init__.py", "gihandop/py.typed")
# Each name of the core metadata, and its key in pyproject.toml.
FIELDS = {"Name": "name", "Version": "version", "Summary": "description", "Requires-Python": "requires-python", "License": "license"}
WHEEL = "Wheel-Version: 1.0\nGenerator: backend.py\nRoot-Is-Purelib: true\nTag: py3-none-any\n"


def text_of(path):
    with open(f"{HERE}/{path}", encoding="utf-8") as file:
        return file.read()


def values():
    """Returns the values of the project by their keys. The file is short: each is one line with one string."""
    project = text_of("pyproject.toml").partition("[project]")[2]
    return dict(re.findall(r'(?m)^([\w-]+) = (?:\{ text = )?"([^"]*)"', project))


def info_files():
    """Returns the name of the folder of metadata, and the texts of its files."""
    project = values()
    metadata = "Metadata-Version: 2.1\n" + "".join(f"{name}: {project[key]}\n" for name, key in FIELDS.items())
    return f"{project['name']}-{project['version']}.dist-info", {"METADATA": metadata, "WHEEL": WHEEL}


def prepare_metadata_for_build_wheel(metadata_directory, config_settings=None):
    """Writes the metadata, and returns the name of their folder."""
    folder, files = info_files()
    os.makedirs(f"{metadata_directory}/{folder}", exist_ok=True)
    for name, text in files.items():
        with open(f"{metadata_directory}/{folder}/{name}", "w", encoding="utf-8") as file:
            file.write(text)
    return folder


def build_wheel(wheel_directory, config_settings=None, metadata_directory=None):
    """Writes the wheel, and returns its name."""
    folder, files = info_files()
    contents = {it: text_of(it) for it in MODULE}
    contents.update({f"{folder}/{name}": text for name, text in files.items()})
    sums = {path: hashlib.sha256(text.encode()).digest() for path, text in contents.items()}
    words = {path: base64.urlsafe_b64encode(it).rstrip(b"=").decode() for path, it in sums.items()}
    lines = [f"{path},sha256={words[path]},{len(text.encode())}\n" for path, text in contents.items()]
    contents[f"{folder}/RECORD"] = "".join(lines) + f"{folder}/RECORD,,\n"
    name = f"{folder.removesuffix('.dist-info')}-py3-none-any.whl"
    with zipfile.ZipFile(f"{wheel_directory}/{name}", "w", zipfile.ZIP_DEFLATED) as wheel:
        for path, text in contents.items():
            # The time is the same for each call.
            entry = zipfile.ZipInfo(path)
            entry.external_attr = 0o644 << 16
            wheel.writestr(entry, text)
    return name


def build_sdist(sdist_directory, config_settings=None):
    """Refuses to make an archive of the sources: the repository has them."""
    raise NotImplementedError("there is no source archive of the module alone")
