"""Files that words of a command line name."""

import os


def held(folder, name, data):
    """The path of a file in a folder that has the bytes; of none that is there where they are None."""
    path = os.path.join(folder, name)
    if data is not None:
        with open(path, 'wb') as file:
            file.write(data)
    return path
