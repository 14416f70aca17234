"""Makes the Python module ready for a test that imports it: its extension is built, or with --without-extension left
out."""
import os
import subprocess
import sys

import preload

WITHOUT_EXTENSION = "--without-extension"
if WITHOUT_EXTENSION in sys.argv:
    sys.modules["sdtool._native"] = None  # type: ignore[assignment]
else:
    subprocess.run([sys.executable, preload.TOP / "python/build_wheel.py", "--extension"], check=False)
os.environ["SDTOOL_LIBRARY"] = preload.LIBRARY
sys.path.insert(0, str(preload.TOP / "python"))
