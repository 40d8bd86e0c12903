"""The module mogyarsu by its former name."""

from mogyarsu import *
from mogyarsu import __all__ as __all__
from mogyarsu import __version__ as __version__
