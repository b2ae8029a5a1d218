"""Writes the list of what the packages contain, in SPDX 2.3:

    sbom.py > hedrugal.spdx.json

It has this library, the crates that THIRD-PARTY lists, and the kit's own libraries.
The date is SOURCE_DATE_EPOCH, or now."""
import json
import os
import re
import time
import uuid
from pathlib import Path

TOP = Path(__file__).resolve().parents[2]


def package(name, version, declared, concluded, holders, **more):
    return {
        "SPDXID": f"SPDXRef-{name}",
        "name": name,
        **({"versionInfo": version} if version else {}),
        "downloadLocation": "NOASSERTION",
        "filesAnalyzed": False,
        "licenseDeclared": declared,
        "licenseConcluded": concluded,
        "copyrightText": holders,
        **more,
    }


def kit_crates():
    """Returns the kit's crates of the table in THIRD-PARTY."""
    notice = (TOP / "THIRD-PARTY").read_text()
    rows = re.findall(r"^ {4}(\w+) +after (\w+ ([\d.]+)), (.*)\n +(.*)$", notice, re.MULTILINE)
    for name, origin, version, licences, holders in rows:
        declared = licences.replace(" or ", " OR ")
        holders = holders if holders.startswith("Copyright") else "NONE"
        source = f"a crate of rattle-kit, after the Rust crate {origin}"
        yield package(name, version, declared, "MIT", holders, sourceInfo=source)


def found(pattern, file):
    return re.search(pattern, (TOP / file).read_text(), re.MULTILINE)[1]


def relation(element, kind, other):
    return {"spdxElementId": element, "relationshipType": kind, "relatedSpdxElement": other}


def document():
    version = found('^#define HED_VERSION "(.*)"$', "c/hedrugal.h")
    name = f"hedrugal-{version}"
    holders = found("^(Copyright .*)$", "LICENSE")
    origin = "a port of the key input of termwiz 0.23.3, MIT, by Wez Furlong"
    kit = "its libraries core, std, std_alloc and those below them"
    packages = [
        package("hedrugal", version, "MIT", "MIT", holders, comment=origin),
        package("rattle-kit", None, "NONE", "NOASSERTION", "NONE", comment=kit),
        *kit_crates(),
    ]
    # This library, and what it is linked with.
    library, *linked = [it["SPDXID"] for it in packages]
    number = uuid.uuid5(uuid.NAMESPACE_URL, json.dumps(packages))
    date = time.gmtime(int(os.environ.get("SOURCE_DATE_EPOCH", time.time())))
    return {
        "spdxVersion": "SPDX-2.3",
        "dataLicense": "CC0-1.0",
        "SPDXID": "SPDXRef-DOCUMENT",
        "name": name,
        "documentNamespace": f"https://spdx.org/spdxdocs/{name}-{number}",
        "creationInfo": {
            "created": time.strftime("%Y-%m-%dT%H:%M:%SZ", date),
            "creators": ["Organization: Hedrugal contributors"],
        },
        "packages": packages,
        "relationships": [
            relation("SPDXRef-DOCUMENT", "DESCRIBES", library),
            *(relation(library, "STATIC_LINK", part) for part in linked),
        ],
    }


print(json.dumps(document(), indent=2))
