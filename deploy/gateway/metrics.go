package main

import (
	"net/http"
	"strconv"
	"sync/atomic"
	"time"

	"github.com/prometheus/client_golang/prometheus"
	"github.com/prometheus/client_golang/prometheus/collectors"
	"github.com/prometheus/client_golang/prometheus/promauto"
	"github.com/prometheus/client_golang/prometheus/promhttp"
)

// The metrics of a gateway. A form is `protobuf`, `json` or `otlp`, or `none` where a head was refused before it was
// looked at.
type metrics struct {
	registry *prometheus.Registry
	requests *prometheus.CounterVec
	received *prometheus.CounterVec
	entries  *prometheus.CounterVec
	seconds  *prometheus.HistogramVec
	forms    map[string]*formMetrics
	sent     prometheus.Counter
	parts    prometheus.Counter
	away     prometheus.Counter
}

// Those of a form, found once. What counts its stored pushes is there once there is one.
type formMetrics struct {
	received, entries prometheus.Counter
	seconds           prometheus.Observer
	stored            atomic.Pointer[prometheus.Counter]
}

func newMetrics(held func() float64) *metrics {
	registry := prometheus.NewRegistry()
	by := promauto.With(registry)
	named := func(name, help string) prometheus.Opts {
		return prometheus.Opts{Namespace: "needleazure_gateway", Name: name, Help: help}
	}
	counter := func(name, help string, labels ...string) *prometheus.CounterVec {
		return by.NewCounterVec(prometheus.CounterOpts(named(name, help)), labels)
	}
	it := &metrics{
		registry: registry,
		requests: counter("requests_total", "Pushes that were answered.", "form", "status"),
		received: counter("received_bytes_total", "Bytes of bodies as they came.", "form"),
		entries:  counter("entries_total", "Entries of bodies that were read.", "form"),
		seconds: by.NewHistogramVec(prometheus.HistogramOpts{
			Namespace: "needleazure_gateway", Name: "request_duration_seconds", Help: "From a push's head to its answer.",
			Buckets: []float64{.001, .0025, .005, .01, .025, .05, .1, .25, .5, 1, 2.5, 5, 10, 60},
		}, []string{"form"}),
		sent:  counter("forwarded_bytes_total", "Bytes of the parts that were sent to the server.").WithLabelValues(),
		parts: counter("parts_total", "Parts of pushes that were sent to the server.").WithLabelValues(),
		away:  counter("unanswered_total", "Parts that the server did not answer.").WithLabelValues(),
	}
	by.NewGaugeFunc(prometheus.GaugeOpts(named("held_bytes", "Memory that the pushes under way were given.")), held)
	registry.MustRegister(collectors.NewGoCollector(), collectors.NewProcessCollector(collectors.ProcessCollectorOpts{}))
	it.forms = map[string]*formMetrics{}
	for _, each := range []string{"protobuf", "json", "otlp"} {
		it.forms[each] = &formMetrics{
			received: it.received.WithLabelValues(each),
			entries:  it.entries.WithLabelValues(each),
			seconds:  it.seconds.WithLabelValues(each),
		}
	}
	return it
}

func (it *metrics) handler() http.Handler {
	return promhttp.HandlerFor(it.registry, promhttp.HandlerOpts{MaxRequestsInFlight: 4})
}

func (it *metrics) answered(form string, status int, began time.Time) {
	its := it.forms[form]
	if its == nil || status != http.StatusNoContent {
		it.requests.WithLabelValues(form, strconv.Itoa(status)).Inc()
		it.seconds.WithLabelValues(form).Observe(time.Since(began).Seconds())
		return
	}
	if its.stored.Load() == nil {
		stored := it.requests.WithLabelValues(form, "204")
		its.stored.Store(&stored)
	}
	(*its.stored.Load()).Inc()
	its.seconds.Observe(time.Since(began).Seconds())
}
