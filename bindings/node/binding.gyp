{
  "targets": [
    {
      "target_name": "peglinden",
      "sources": ["peglinden.c"],
      "include_dirs": ["<(module_root_dir)/../c", "<(module_root_dir)"],
      "libraries": ["<!(echo ${PEGLINDEN_ARCHIVE:-<(module_root_dir)/libpeglinden.a})"]
    }
  ]
}
