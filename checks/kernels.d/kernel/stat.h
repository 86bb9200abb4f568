// Programs include it, as in xv6; this kernel has no stat().
