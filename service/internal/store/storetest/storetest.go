// Package storetest opens stores for tests.
package storetest

import (
	"context"
	"database/sql"
	"fmt"
	"os"
	"path/filepath"
	"strings"
	"sync/atomic"
	"testing"
	"time"

	"mlscheckd/internal/store"
)

// Each runs a test with the name of a new SQLite file, and with that of a new schema of the PostgreSQL server that
// MLSCHECKD_TEST_POSTGRES names.
func Each(t *testing.T, test func(t *testing.T, name string)) {
	t.Run("SQLite", func(t *testing.T) { test(t, filepath.Join(t.TempDir(), "groups %20?#'\".db")) })
	t.Run("PostgreSQL", func(t *testing.T) { test(t, postgres(t)) })
}

var schemas atomic.Int64

func postgres(t *testing.T) string {
	server := os.Getenv("MLSCHECKD_TEST_POSTGRES")
	if server == "" {
		t.Skip("MLSCHECKD_TEST_POSTGRES names no server: tests/postgres starts one")
	}
	db, err := sql.Open("pgx", server)
	if err != nil {
		t.Fatal(err)
	}
	defer db.Close()
	schema := fmt.Sprintf("test_%d_%d_%d", os.Getpid(), time.Now().UnixNano(), schemas.Add(1))
	if _, err := db.Exec("CREATE SCHEMA " + schema); err != nil {
		t.Fatal(err)
	}
	return server + "&search_path=" + schema
}

// Open opens a store, and closes it after the test.
func Open(t *testing.T, name string) *store.Store {
	t.Helper()
	s, err := store.Open(context.Background(), name)
	if err != nil {
		t.Fatal(err)
	}
	t.Cleanup(func() { s.Close() })
	return s
}

// Hold opens the store of this name a second time, and keeps others from writing to it until the function that it returns is called.
func Hold(t *testing.T, name string) (release func()) {
	t.Helper()
	driver, dsn, statement := "sqlite3", "file:"+strings.NewReplacer("%", "%25", "?", "%3f", "#", "%23").Replace(name)+"?_txlock=immediate", "SELECT 1"
	if !filepath.IsAbs(name) {
		driver, dsn, statement = "pgx", name, "LOCK TABLE groups IN EXCLUSIVE MODE"
	}
	db, err := sql.Open(driver, dsn)
	if err != nil {
		t.Fatal(err)
	}
	tx, err := db.Begin()
	if err == nil {
		_, err = tx.Exec(statement)
	}
	if err != nil {
		t.Fatal(err)
	}
	return func() {
		tx.Rollback()
		db.Close()
	}
}
