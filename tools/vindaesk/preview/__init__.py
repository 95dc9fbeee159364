"""A page that follows the files of a layout: pictures, views, findings and touches, over HTTP on this machine alone."""
