/** Contexts for {@code java.net.http} and {@code com.sun.net.httpserver}. */
package org.terncommode.http;
