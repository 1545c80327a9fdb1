\echo Use "CREATE EXTENSION rematch" to load this file. \quit

CREATE FUNCTION rematch(query text, document text, after text DEFAULT NULL, most bigint DEFAULT NULL,
                        max_table bigint DEFAULT NULL, filter boolean DEFAULT false)
RETURNS TABLE (row_number bigint, spans int4range[], texts text[])
AS 'MODULE_PATHNAME', 'rematch_in_text' LANGUAGE C IMMUTABLE PARALLEL SAFE COST 1000 ROWS 100;

CREATE FUNCTION rematch(query text, document bytea, after text DEFAULT NULL, most bigint DEFAULT NULL,
                        max_table bigint DEFAULT NULL, filter boolean DEFAULT false)
RETURNS TABLE (row_number bigint, spans int4range[], texts bytea[])
AS 'MODULE_PATHNAME', 'rematch_in_bytes' LANGUAGE C IMMUTABLE PARALLEL SAFE COST 1000 ROWS 100;

CREATE FUNCTION rematch_record(query text, document text, after text DEFAULT NULL, most bigint DEFAULT NULL,
                               max_table bigint DEFAULT NULL, filter boolean DEFAULT false)
RETURNS SETOF record
AS 'MODULE_PATHNAME', 'rematch_in_text' LANGUAGE C IMMUTABLE PARALLEL SAFE COST 1000 ROWS 100;

CREATE FUNCTION rematch_record(query text, document bytea, after text DEFAULT NULL, most bigint DEFAULT NULL,
                               max_table bigint DEFAULT NULL, filter boolean DEFAULT false)
RETURNS SETOF record
AS 'MODULE_PATHNAME', 'rematch_in_bytes' LANGUAGE C IMMUTABLE PARALLEL SAFE COST 1000 ROWS 100;

CREATE FUNCTION rematch_any(query text, document text, max_table bigint DEFAULT NULL, filter boolean DEFAULT false)
RETURNS boolean
AS 'MODULE_PATHNAME', 'rematch_any_in_text' LANGUAGE C IMMUTABLE PARALLEL SAFE COST 1000;

CREATE FUNCTION rematch_any(query text, document bytea, max_table bigint DEFAULT NULL, filter boolean DEFAULT false)
RETURNS boolean
AS 'MODULE_PATHNAME', 'rematch_any_in_bytes' LANGUAGE C IMMUTABLE PARALLEL SAFE COST 1000;

CREATE FUNCTION rematch_variables(query text) RETURNS text[]
AS 'MODULE_PATHNAME', 'rematch_variables_of' LANGUAGE C STRICT IMMUTABLE PARALLEL SAFE COST 1000;

CREATE FUNCTION rematch_version() RETURNS text
AS 'MODULE_PATHNAME', 'rematch_version_of' LANGUAGE C STRICT IMMUTABLE PARALLEL SAFE;
