"""The older name of covrith.models."""

import sys

import covrith.models

sys.modules[__name__] = covrith.models
