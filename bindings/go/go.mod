module mlscheck

go 1.19
