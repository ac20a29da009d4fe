"""Makes a wheel of the Python package, with the shared library in it, for `pip install .` and `pip wheel .` (PEP 517). It needs Python 3.8 alone,
and no index: setuptools makes no wheel without a further package where it is older than 70.1. What isn't proved and built yet is proved and built
first, by `./build-library`."""
import base64
import hashlib
import os
import re
import subprocess
import sysconfig
import zipfile

TOP = os.path.dirname(os.path.dirname(os.path.abspath(__file__)))
SOURCES = os.path.join(TOP, "python/onuctl")
METADATA = """\
Metadata-Version: 2.1
Name: onuctl
Version: {version}
Summary: An optical network unit (ITU-T G.988) in your process, and a judge of other units
Requires-Python: >=3.8
Provides-Extra: cluster
Requires-Dist: distributed; extra == "cluster"
Provides-Extra: progress
Requires-Dist: tqdm; extra == "progress"
Provides-Extra: pytest
Requires-Dist: pytest>=7; extra == "pytest"
"""
# The name is the module's, so that `-p onuctl.pytest_plugin` doesn't load it twice.
ENTRY_POINTS = """\
[pytest11]
onuctl.pytest_plugin = onuctl.pytest_plugin
"""
WHEEL = """\
Wheel-Version: 1.0
Generator: onuctl
Root-Is-Purelib: false
Tag: {tag}
"""


class UnsupportedOperation(Exception):
    """What is raised where there is no such archive."""


def read(path):
    with open(path, "rb") as file:
        return file.read()


def sources():
    """The files of the package: their names, and what they hold."""
    names = [name for name in sorted(os.listdir(SOURCES)) if name.endswith((".py", ".typed"))]
    names += [f"templates/{name}" for name in sorted(os.listdir(os.path.join(SOURCES, "templates")))]
    return [(name, read(os.path.join(SOURCES, name))) for name in names]


def information(version):
    """The files beside the package by which Python's packages and pytest find it: their names, and what they hold."""
    return [("METADATA", METADATA.format(version=version).encode()), ("entry_points.txt", ENTRY_POINTS.encode())]


def library():
    """What the shared library holds."""
    subprocess.run([os.path.join(TOP, "build-library")], stdin=subprocess.DEVNULL, check=True)
    return read(os.path.join(TOP, "library/out/libonu.so"))


def recorded(name, data):
    """A line of a wheel's record."""
    digest = base64.urlsafe_b64encode(hashlib.sha256(data).digest()).rstrip(b"=").decode()
    return f"{name},sha256={digest},{len(data)}\n"


def build_wheel(wheel_directory, config_settings=None, metadata_directory=None):
    version = subprocess.run([os.path.join(TOP, "shell/version")], stdout=subprocess.PIPE, check=True).stdout.decode().strip()
    tag = "py3-none-" + re.sub(r"[-.]", "_", sysconfig.get_platform())
    info = f"onuctl-{version}.dist-info"
    files = [(f"onuctl/{name}", data) for name, data in [*sources(), ("libonu.so", library())]]
    files += [(f"{info}/{name}", data) for name, data in [*information(version), ("WHEEL", WHEEL.format(tag=tag).encode())]]
    record = "".join(recorded(*file) for file in files) + f"{info}/RECORD,,\n"
    wheel = f"onuctl-{version}-{tag}.whl"
    with zipfile.ZipFile(os.path.join(wheel_directory, wheel), "w", zipfile.ZIP_DEFLATED) as archive:
        for name, data in [*files, (f"{info}/RECORD", record.encode())]:
            # The same files give the same wheel.
            entry = zipfile.ZipInfo(name)
            entry.compress_type = zipfile.ZIP_DEFLATED
            entry.external_attr = (0o100755 if name.endswith(".so") else 0o100644) << 16
            archive.writestr(entry, data)
    return wheel


def build_sdist(sdist_directory, config_settings=None):
    raise UnsupportedOperation("an archive of the package's sources can't build the library, which the whole repository proves")
