// Stand-in: the oracle needs nothing of this module.
