"""The older name of covrith.distributions."""

import sys

import covrith.distributions

sys.modules[__name__] = covrith.distributions
