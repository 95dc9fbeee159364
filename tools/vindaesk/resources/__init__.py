"""Compiled resources: tables, configurations, and what a device takes of them.

Code of our own reads them since 2026-12-01, in place of androguard 3.4.0 or pyaxmlparser 0.3.27. As Debian has them,
they took 19 and 21 s and 680 MB for the table of Android 10's framework, read here in 0.1 s and 60 MB. Both lose emoji
that `aapt2` writes as two halves, read -4.25dp as 507.75dip, give values of other resources in sparse tables, refuse
compact entries, and do not choose by device. What is read here is compared with `aapt`, `aapt2` and Android's own
library.
"""
