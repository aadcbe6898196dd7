"""Dies with many modules, of which none is asyncio's.

    imports_child.py HOLDS

HOLDS is what the core is to hold, as coredump_filter has it. It prints one JSON object with `modules`: how many it has.
"""

import importlib
import json
import os
import sys

MODULES = """argparse base64 calendar cmd configparser copy csv ctypes dataclasses datetime decimal difflib email.mime.text enum fractions ftplib
getpass gettext glob gzip hashlib hmac html.parser http.client http.cookiejar http.server imaplib inspect json.tool locale logging.config logging.handlers
lzma mailbox mimetypes multiprocessing.managers netrc optparse pickletools platform plistlib poplib pprint profile pstats queue random sched secrets
shelve shlex shutil smtplib socketserver sqlite3 ssl statistics string subprocess sysconfig tarfile tempfile textwrap timeit tokenize trace tracemalloc
typing urllib.request uuid wave webbrowser xml.dom.minidom xml.etree.ElementTree xmlrpc.client zipapp zipfile concurrent.futures.thread""".split()
"""What programs import."""


def main():
    """Imports, tells, and dies."""
    for name in MODULES:
        try:
            importlib.import_module(name)
        except ImportError:
            pass
    with open("/proc/self/coredump_filter", "w") as file:
        file.write(sys.argv[1])
    if any(it.split(".")[0] in ("asyncio", "_asyncio") for it in sys.modules):
        sys.exit("asyncio is imported")
    print(json.dumps({"modules": len(sys.modules)}), flush=True)
    os.abort()


main()
