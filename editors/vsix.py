#!/usr/bin/env python3
"""Makes of `editors/vscode` a package that VS Code installs: a zip of its files with a manifest and the types of these files.

    python3 editors/vsix.py mpdbg.vsix
    code --install-extension mpdbg.vsix

All that the manifest says stands in `package.json` there. The same files give the same bytes. docs/EDITORS.md says how it is installed.
"""

import json
import os
import sys
import zipfile
from xml.sax.saxutils import escape, quoteattr

FOLDER = os.path.join(os.path.dirname(os.path.abspath(__file__)), 'vscode')
# The types of files, by how their names end.
TYPES = {'.js': 'application/javascript', '.json': 'application/json', '.vsixmanifest': 'text/xml'}
TYPES_TEXT = '''<?xml version="1.0" encoding="utf-8"?>
<Types xmlns="http://schemas.openxmlformats.org/package/2006/content-types">
{}
</Types>
'''
MANIFEST = '''<?xml version="1.0" encoding="utf-8"?>
<PackageManifest Version="2.0.0" xmlns="http://schemas.microsoft.com/developer/vsx-schema/2011">
  <Metadata>
    <Identity Language="en-US" Id={name} Version={version} Publisher={publisher}/>
    <DisplayName>{shown}</DisplayName>
    <Description xml:space="preserve">{description}</Description>
    <Categories>{categories}</Categories>
    <Properties>
      <Property Id="Microsoft.VisualStudio.Code.Engine" Value={engine}/>
    </Properties>
  </Metadata>
  <Installation>
    <InstallationTarget Id="Microsoft.VisualStudio.Code"/>
  </Installation>
  <Dependencies/>
  <Assets>
    <Asset Type="Microsoft.VisualStudio.Code.Manifest" Path="extension/package.json" Addressable="true"/>
  </Assets>
</PackageManifest>
'''
# The date of each file: the first that a zip can tell.
DATE = 1980, 1, 1, 0, 0, 0


def files():
    """The files of the extension, by their names below its folder, with their bytes."""
    found = {}
    for folder, _, names in os.walk(FOLDER):
        for name in (it for it in names if not it.startswith('.')):
            path = os.path.join(folder, name)
            with open(path, 'rb') as it:
                found[os.path.relpath(path, FOLDER)] = it.read()
    return dict(sorted(found.items()))


def manifest(extension):
    """What is said of the package."""
    return MANIFEST.format(
        name=quoteattr(extension['name']), version=quoteattr(extension['version']), publisher=quoteattr(extension['publisher']),
        shown=escape(extension['displayName']), description=escape(extension['description']), categories=escape(','.join(extension['categories'])),
        engine=quoteattr(extension['engines']['vscode']))


def members():
    """All that stands in the package, by name."""
    of_extension = files()
    types = '\n'.join(f'  <Default Extension="{end}" ContentType="{kind}"/>' for end, kind in TYPES.items())
    return {'[Content_Types].xml': TYPES_TEXT.format(types).encode(),
            'extension.vsixmanifest': manifest(json.loads(of_extension['package.json'])).encode(),
            **{f'extension/{name}': data for name, data in of_extension.items()}}


def write(to, of):
    """Writes the package of these members to a file, told by its path or open."""
    with zipfile.ZipFile(to, 'w') as package:
        for name, data in of.items():
            package.writestr(zipfile.ZipInfo(name, DATE), data, zipfile.ZIP_DEFLATED)


def main():
    if len(sys.argv) != 2:
        sys.exit(__doc__)
    write(sys.argv[1], members())


if __name__ == '__main__':
    main()
