"""What `tools/package` makes: the files of a package, its manual pages and completions, a tarball and a Debian package."""
