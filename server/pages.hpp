// The files that the server has in itself, which the Makefile makes of map.html and openapi.json.
#pragma once

extern const char MAP_PAGE[], OPENAPI[];
