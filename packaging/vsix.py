#!/usr/bin/env python3
"""vsix.py FOLDER FILE: packs the extension in a folder for VS Code, as a zip of a fixed layout. The files have the time
SOURCE_DATE_EPOCH, so the same folder gives the same bytes."""

import json
import os
import sys
import time
import zipfile
from xml.sax.saxutils import quoteattr, escape

TYPES = """<?xml version="1.0" encoding="utf-8"?>
<Types xmlns="http://schemas.openxmlformats.org/package/2006/content-types">
<Default Extension=".js" ContentType="application/javascript"/>
<Default Extension=".json" ContentType="application/json"/>
<Default Extension=".md" ContentType="text/markdown"/>
<Default Extension=".txt" ContentType="text/plain"/>
<Default Extension=".vsixmanifest" ContentType="text/xml"/>
</Types>
"""

MANIFEST = """<?xml version="1.0" encoding="utf-8"?>
<PackageManifest Version="2.0.0" xmlns="http://schemas.microsoft.com/developer/vsx-schema/2011">
<Metadata>
<Identity Language="en-US" Id={id} Version={version} Publisher={publisher}/>
<DisplayName>{name}</DisplayName>
<Description xml:space="preserve">{description}</Description>
<Categories>{categories}</Categories>
<Properties><Property Id="Microsoft.VisualStudio.Code.Engine" Value={engine}/></Properties>
</Metadata>
<Installation><InstallationTarget Id="Microsoft.VisualStudio.Code"/></Installation>
<Dependencies/>
<Assets>
<Asset Type="Microsoft.VisualStudio.Code.Manifest" Path="extension/package.json" Addressable="true"/>
<Asset Type="Microsoft.VisualStudio.Services.Content.Details" Path="extension/README.md" Addressable="true"/>
<Asset Type="Microsoft.VisualStudio.Services.Content.License" Path="extension/COPYRIGHT.txt" Addressable="true"/>
</Assets>
</PackageManifest>
"""


def manifest(package):
    """What the package says of the extension."""
    return MANIFEST.format(
        id=quoteattr(package["name"]), version=quoteattr(package["version"]), publisher=quoteattr(package["publisher"]),
        name=escape(package["displayName"]), description=escape(package["description"]),
        categories=escape(",".join(package["categories"])), engine=quoteattr(package["engines"]["vscode"]))


def files_of(folder):
    """The files of the extension by their names in the zip."""
    with open(os.path.join(folder, "package.json"), encoding="utf-8") as file:
        found = {"[Content_Types].xml": TYPES.encode(), "extension.vsixmanifest": manifest(json.load(file)).encode()}
    for at, _, names in os.walk(folder):
        for name in names:
            path = os.path.join(at, name)
            with open(path, "rb") as file:
                found["extension/" + os.path.relpath(path, folder)] = file.read()
    return found


def main(folder, target):
    when = time.gmtime(max(315532800, int(os.environ.get("SOURCE_DATE_EPOCH", "0"))))[:6]
    with zipfile.ZipFile(target, "w") as packed:
        for name, data in sorted(files_of(folder).items()):
            entry = zipfile.ZipInfo(name, when)
            entry.compress_type, entry.external_attr, entry.create_system = zipfile.ZIP_DEFLATED, 0o644 << 16, 3
            packed.writestr(entry, data)


main(*sys.argv[1:])
