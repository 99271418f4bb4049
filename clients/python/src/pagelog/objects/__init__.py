"""Objects, under keys that are written once: in a folder (`place`) or a bucket (`s3`), as `settings` say; `segment` has the form of blocks,
`pack` that of images."""
