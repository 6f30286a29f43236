/**
 * Baggage contexts: what a request carries along through many services. A {@link org.terncommode.Context} is always valid and never changes; where
 * branches meet, contexts are joined, and where a channel has a budget, a context is cut to it. A {@link org.terncommode.Bag} is what a service
 * knows; with it the service writes and reads fields, each with a word on whether it is exact, so that nothing of it can have been cut off. A {@link
 * org.terncommode.Request} holds the context of one visit of a service.
 */
package org.terncommode;
