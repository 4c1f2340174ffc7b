package main

import (
	"context"
	"encoding/json"
	"errors"
	"net/http"
	"net/url"
	"strings"

	"example.org/odfilter"
)

// filterKey is the key of a request's checked filter in its context.
type filterKey struct{}

// filterOf returns the checked filter of a request, or nil.
func filterOf(r *http.Request) *odfilter.Filter {
	filter, _ := r.Context().Value(filterKey{}).(*odfilter.Filter)
	return filter
}

// checked passes on requests whose filter is accepted and has at most so many nodes, with its canonical text in the
// query, and answers others by 400 and the standard's error body.
func checked(entities *odfilter.Type, mostNodes uint64, next http.Handler) http.Handler {
	return http.HandlerFunc(func(w http.ResponseWriter, r *http.Request) {
		filter, err := entities.CheckURL(r.URL.RawQuery)
		var refused *odfilter.RefusedError
		var query *odfilter.QueryError
		switch {
		case errors.Is(err, odfilter.ErrNoFilter):
			next.ServeHTTP(w, r)
		case errors.As(err, &refused):
			refuse(w, refused.Code, refused.Message, json.RawMessage(refused.JSON))
		case errors.As(err, &query):
			refuse(w, query.Code, query.Message, json.RawMessage(query.JSON))
		case err != nil:
			http.Error(w, err.Error(), http.StatusInternalServerError)
		default:
			defer filter.Close()
			pass(w, r, filter, mostNodes, next)
		}
	})
}

func pass(w http.ResponseWriter, r *http.Request, filter *odfilter.Filter, mostNodes uint64, next http.Handler) {
	if nodes, err := filter.NodeCount(); err != nil || nodes > mostNodes {
		refuse(w, "TooComplex", "The filter has too many nodes.", nil)
		return
	}
	text, _ := filter.Canonical()
	query := r.URL.RawQuery
	r = r.Clone(context.WithValue(r.Context(), filterKey{}, filter))
	value := strings.ReplaceAll(url.QueryEscape(text), "+", "%20")
	r.URL.RawQuery = query[:filter.Value.Start] + value + query[filter.Value.Stop:]
	next.ServeHTTP(w, r)
}

func refuse(w http.ResponseWriter, code, message string, inner any) {
	fault := map[string]any{"code": code, "message": message, "target": "$filter", "innererror": inner}
	w.Header().Set("Content-Type", "application/json")
	w.WriteHeader(http.StatusBadRequest)
	json.NewEncoder(w).Encode(map[string]any{"error": fault})
}
