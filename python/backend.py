"""Makes the wheel (PEP 517), with what Python has by itself: the package's files as they are, the shared object among them."""
import base64
import hashlib
import os
import re
import sysconfig
import zipfile

HERE = os.path.dirname(os.path.abspath(__file__))
PACKAGE = os.path.join(HERE, "tyngyrlak")


def _said(name):
    with open(os.path.join(HERE, "pyproject.toml"), encoding="utf-8") as f:
        return re.search(r'^%s = "(.*)"$' % name, f.read(), re.M).group(1)


def _wheel(folder, files):
    name, version = _said("name"), _said("version")
    tag = "py3-none-" + re.sub(r"[-.]", "_", sysconfig.get_platform())
    info = "%s-%s.dist-info/" % (name, version)
    meta = "Metadata-Version: 2.1\nName: %s\nVersion: %s\nSummary: %s\nRequires-Python: %s\nRequires-Dist: numpy\n"
    files[info + "METADATA"] = (meta % (name, version, _said("description"), _said("requires-python"))).encode()
    files[info + "WHEEL"] = ("Wheel-Version: 1.0\nGenerator: backend\nRoot-Is-Purelib: false\nTag: %s\n" % tag).encode()
    rows = []
    for path, data in files.items():
        digest = base64.urlsafe_b64encode(hashlib.sha256(data).digest()).rstrip(b"=").decode()
        rows.append("%s,sha256=%s,%d\n" % (path, digest, len(data)))
    files[info + "RECORD"] = ("".join(rows) + info + "RECORD,,\n").encode()
    wheel = "%s-%s-%s.whl" % (name, version, tag)
    with zipfile.ZipFile(os.path.join(folder, wheel), "w", zipfile.ZIP_DEFLATED) as z:
        for path, data in files.items():
            # the same files make the same wheel
            z.writestr(zipfile.ZipInfo(path, (1980, 1, 1, 0, 0, 0)), data, zipfile.ZIP_DEFLATED)
    return wheel


def build_wheel(wheel_directory, config_settings=None, metadata_directory=None):
    if not os.path.isfile(os.path.join(PACKAGE, "libtyngyrlak.so")):
        raise SystemExit("there is no python/tyngyrlak/libtyngyrlak.so yet: `sh python/shared.sh` makes it of libfield.a")
    files = {}
    for name in sorted(os.listdir(PACKAGE)):
        if name.endswith((".py", ".so")):
            with open(os.path.join(PACKAGE, name), "rb") as f:
                files["tyngyrlak/" + name] = f.read()
    return _wheel(wheel_directory, files)


def build_editable(wheel_directory, config_settings=None, metadata_directory=None):
    return _wheel(wheel_directory, {"tyngyrlak.pth": (HERE + "\n").encode()})
