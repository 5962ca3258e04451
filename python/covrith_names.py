"""The older name of covrith.names."""

import sys

import covrith.names

sys.modules[__name__] = covrith.names
