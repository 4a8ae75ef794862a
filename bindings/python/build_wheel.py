"""Packs the folder vcube as a wheel, for pip: a build backend (PEP 517) without setuptools, so that it works offline everywhere.

What it says of the package it reads from the lines of pyproject.toml. A libvcube.so.1 in the folder vcube goes along, and the wheel is then for
this platform only.
"""

import base64
import hashlib
import io
import re
import sysconfig
import tarfile
import zipfile
from pathlib import Path

ROOT = Path(__file__).resolve().parent
LIBRARY = 'libvcube.so.1'
PROJECT = (ROOT / 'pyproject.toml').read_text()


def said(key, begin='"', end='"'):
    return re.search(rf'^{key} = {begin}(.*){end}$', PROJECT, re.M)[1]


LICENCE = said('license', '{ text = "', '" }')
NAME = f'{said("name")}-{said("version")}'
METADATA = f'''Metadata-Version: 2.1
Name: {said('name')}
Version: {said('version')}
Summary: {said('description')}
License: {LICENCE}
Requires-Python: {said('requires-python')}
Provides-Extra: arrays
Requires-Dist: numpy ; extra == "arrays"
'''


def packed():
    return sorted(it for it in (ROOT / 'vcube').iterdir() if it.suffix == '.py' or it.name in ('py.typed', LIBRARY))


def tag():
    if not (ROOT / 'vcube' / LIBRARY).exists():
        return 'py3-none-any'
    return f'py3-none-{re.sub("[-.]", "_", sysconfig.get_platform())}'


def build_wheel(wheel_directory, config_settings=None, metadata_directory=None):
    wheel = f'Wheel-Version: 1.0\nGenerator: build_wheel\nRoot-Is-Purelib: {str(tag().endswith("any")).lower()}\nTag: {tag()}\n'
    files = {f'vcube/{it.name}': it.read_bytes() for it in packed()}
    files[f'{NAME}.dist-info/METADATA'] = METADATA.encode()
    files[f'{NAME}.dist-info/WHEEL'] = wheel.encode()
    record = ''
    for path, contents in files.items():
        digest = base64.urlsafe_b64encode(hashlib.sha256(contents).digest()).rstrip(b'=').decode()
        record += f'{path},sha256={digest},{len(contents)}\n'
    files[f'{NAME}.dist-info/RECORD'] = f'{record}{NAME}.dist-info/RECORD,,\n'.encode()
    made = f'{NAME}-{tag()}.whl'
    with zipfile.ZipFile(Path(wheel_directory) / made, 'w', zipfile.ZIP_DEFLATED) as archive:
        for path, contents in files.items():
            entry = zipfile.ZipInfo(path)  # of 1980: a wheel of the same files is the same
            entry.external_attr = 0o644 << 16
            entry.compress_type = zipfile.ZIP_DEFLATED
            archive.writestr(entry, contents)
    return made


def build_sdist(sdist_directory, config_settings=None):
    made = f'{NAME}.tar.gz'
    with tarfile.open(Path(sdist_directory) / made, 'w:gz') as archive:
        for path in [ROOT / 'pyproject.toml', Path(__file__), *packed()]:
            archive.add(path, f'{NAME}/{path.relative_to(ROOT)}')
        entry = tarfile.TarInfo(f'{NAME}/PKG-INFO')
        entry.size = len(METADATA.encode())
        archive.addfile(entry, io.BytesIO(METADATA.encode()))
    return made
