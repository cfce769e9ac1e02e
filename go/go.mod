module tinkey

go 1.19
