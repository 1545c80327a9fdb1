/* Queries of rematch in PostgreSQL, over the library for C. README.md has the functions; rematch--1.0.sql declares them.
 *
 * The library takes its memory by malloc. So what a call holds of it stands in a memory context with a callback, which gives it back
 * when the call ends, by an error or a cancel too.
 */
#include "postgres.h"

#include "catalog/pg_type.h"
#include "fmgr.h"
#include "funcapi.h"
#include "mb/pg_wchar.h"
#include "miscadmin.h"
#include "utils/array.h"
#include "utils/builtins.h"
#include "utils/memutils.h"
#include "utils/rangetypes.h"
#include "utils/typcache.h"

#include "rematch.h"

PG_MODULE_MAGIC;

enum
{
	KEPT_QUERIES = 16,			/* of a server process */
	FIRST_ROWS = 10,			/* that are read at once, then four times as many */
	MOST_ROWS = 256,
	MOST_VARIABLES = 32,
	MOST_NUMBERS = 2048,		/* of the rows that are read at once */
	MOST_TABLE = 100000000
};

/* What the functions take, by the places of their arguments. */
enum
{
	QUERY,
	DOCUMENT,
	AFTER,
	MOST,
	MAX_TABLE,
	FILTER
};

typedef struct Bytes
{
	const char *at;
	size_t		length;
} Bytes;

/* ---- faults ---- */

static int
code_of(uint32_t status)
{
	switch (status)
	{
		case REMATCH_QUERY:
			return ERRCODE_INVALID_REGULAR_EXPRESSION;
		case REMATCH_CURSOR:
			return ERRCODE_INVALID_PARAMETER_VALUE;
		case REMATCH_MEMORY:
			return ERRCODE_OUT_OF_MEMORY;
		case REMATCH_SIZE:
		case REMATCH_LONG:
			return ERRCODE_PROGRAM_LIMIT_EXCEEDED;
		default:
			return ERRCODE_INTERNAL_ERROR;
	}
}

static void
check(uint32_t status, const rematch_text *note)
{
	if (status != REMATCH_DONE)
		ereport(ERROR,
				(errcode(code_of(status)),
				 errmsg("rematch: %s", note->length != 0 ? note->bytes : "the call is refused")));
}

/* ---- texts: the library reads UTF-8, whatever the encoding of the database ---- */

static Bytes
bytes_of(struct varlena *value)
{
	return (Bytes) {VARDATA_ANY(value), VARSIZE_ANY_EXHDR(value)};
}

/* A text as UTF-8. In a database of SQL_ASCII it is taken as it is. */
static Bytes
utf8_of(struct varlena *value)
{
	Bytes		text = bytes_of(value);
	char	   *changed;

	if (GetDatabaseEncoding() == PG_UTF8 || GetDatabaseEncoding() == PG_SQL_ASCII)
		return text;
	changed = pg_server_to_any(text.at, (int) text.length, PG_UTF8);
	return changed == text.at ? text : (Bytes) {changed, strlen(changed)};
}

/* A text of the database, where the bytes are one. */
static Datum
text_of(const char *at, size_t length, const char *variable)
{
	int			encoding = GetDatabaseEncoding() == PG_SQL_ASCII ? PG_SQL_ASCII : PG_UTF8;
	char	   *changed;

	if (!pg_verify_mbstr(encoding, at, (int) length, true))
		ereport(ERROR,
				(errcode(ERRCODE_CHARACTER_NOT_IN_REPERTOIRE),
				 errmsg("rematch: what %s holds is no text: it begins or ends within a character, or has other bytes", variable),
				 errhint("Write the formula over characters, as /../u, or search a bytea.")));
	if (length == 0 || encoding == PG_SQL_ASCII)
		return PointerGetDatum(cstring_to_text_with_len(at, (int) length));
	changed = pg_any_to_server(at, (int) length, PG_UTF8);
	return PointerGetDatum(changed == at ? cstring_to_text_with_len(at, (int) length) : cstring_to_text(changed));
}

static Datum
piece_of(Oid type, const char *at, size_t length, const char *variable)
{
	return type == BYTEAOID ? PointerGetDatum(cstring_to_text_with_len(at, (int) length)) : text_of(at, length, variable);
}

/* ---- compiled queries, of which a server process keeps the last ones ---- */

typedef struct Kept
{
	rematch_query query;
	char	   *text;
	size_t		length;
} Kept;

static Kept *kept[KEPT_QUERIES];

static void
forget(Kept *entry)
{
	rematch_close(&entry->query);
	pfree(entry);
}

/* Compiles a query into an entry of its own. */
static Kept *
compiled(Bytes text)
{
	Kept	   *entry = MemoryContextAllocZero(TopMemoryContext, sizeof(Kept) + text.length + 1);
	rematch_text note;
	uint32_t	status = rematch_compile(text.at, text.length, &entry->query, &note);

	if (status != REMATCH_DONE)
	{
		pfree(entry);
		check(status, &note);
	}
	entry->text = (char *) (entry + 1);
	entry->length = text.length;
	memcpy(entry->text, text.at, text.length);
	return entry;
}

/* Puts the compiled query of a text into a slot. */
static void
find(Bytes text, rematch_query *query)
{
	static const rematch_text none = {0, ""};
	Kept	   *entry;
	int			at = 0;

	while (at < KEPT_QUERIES && kept[at] != NULL
		   && (kept[at]->length != text.length || memcmp(kept[at]->text, text.at, text.length) != 0))
		at++;
	if (at < KEPT_QUERIES && kept[at] != NULL)
		entry = kept[at];
	else
	{
		entry = compiled(text);
		at = Min(at, KEPT_QUERIES - 1);
		if (kept[at] != NULL)
			forget(kept[at]);
	}
	memmove(kept + 1, kept, at * sizeof(*kept));
	kept[0] = entry;
	check(rematch_share(&entry->query, query), &none);
}

/* ---- a document that is being read ---- */

typedef struct Reading
{
	rematch_query query;
	rematch_rows rows;
	MemoryContextCallback end;
	size_t		variables;
	Bytes		document;
	int64		number,			/* of the last row */
				left;			/* rows that are still wanted */
	size_t		at,
				given,
				next_rows;
	bool		is_last;
	uint32_t	numbers[MOST_NUMBERS];
	rematch_text *names;
} Reading;

static void
end_reading(void *at)
{
	Reading	   *reading = at;

	rematch_close(&reading->rows);
	rematch_close(&reading->query);
}

static rematch_options
options_of(FunctionCallInfo fcinfo, int max_table)
{
	rematch_options options = REMATCH_OPTIONS;
	int64		most = PG_ARGISNULL(max_table) ? (int64) options.max_table : PG_GETARG_INT64(max_table);

	if (most < 1 || most > MOST_TABLE)
		ereport(ERROR,
				(errcode(ERRCODE_INVALID_PARAMETER_VALUE),
				 errmsg("rematch: max_table is a number from 1 to %d", MOST_TABLE)));
	options.max_table = (uint64_t) most;
	options.filter = !PG_ARGISNULL(max_table + 1) && PG_GETARG_BOOL(max_table + 1);
	return options;
}

/* Begins to read a document, in a context that lives as long as the call of the function. */
static Reading *
begin_reading(FunctionCallInfo fcinfo, bool is_text, rematch_options options, Bytes after)
{
	Reading	   *reading = palloc0(sizeof(Reading));
	struct varlena *value = (struct varlena *) PG_GETARG_BYTEA_P_COPY(DOCUMENT);
	rematch_text note;

	reading->end.func = end_reading;
	reading->end.arg = reading;
	MemoryContextRegisterResetCallback(CurrentMemoryContext, &reading->end);
	find(utf8_of((struct varlena *) PG_GETARG_TEXT_PP(QUERY)), &reading->query);
	reading->document = is_text ? utf8_of(value) : bytes_of(value);
	check(rematch_open_after(&reading->query, reading->document.at, reading->document.length, &options, after.at, after.length, &reading->rows, &note),
		  &note);
	rematch_variables(&reading->query, &reading->variables);
	reading->names = palloc((reading->variables + 1) * sizeof(*reading->names));
	for (size_t k = 0; k < reading->variables; k++)
		rematch_variable(&reading->query, k, &reading->names[k]);
	reading->left = PG_INT64_MAX;
	reading->next_rows = FIRST_ROWS;
	return reading;
}

/* The numbers of the next row, or null behind the last. A cancel is looked for between the readings of rows. */
static const uint32_t *
next_row(Reading *reading)
{
	if (reading->at == reading->given)
	{
		size_t		most = Min((int64) reading->next_rows, reading->left);

		if (reading->variables != 0)
			most = Min(most, MOST_NUMBERS / (2 * reading->variables));
		CHECK_FOR_INTERRUPTS();
		if (reading->is_last || most == 0)
			return NULL;
		if (rematch_fill(&reading->rows, reading->numbers, MOST_NUMBERS, most, &reading->given) != REMATCH_DONE)
			elog(ERROR, "rematch: no rows");
		reading->at = 0;
		reading->is_last = reading->given < most;
		reading->next_rows = Min(4 * reading->next_rows, MOST_ROWS);
		if (reading->given == 0)
			return NULL;
	}
	reading->left--;
	reading->number++;
	return reading->numbers + 2 * reading->variables * reading->at++;
}

/* ---- columns ---- */

/* What a column of a row shows, of a variable or of the row. */
typedef enum Shows
{
	SHOWS_NUMBER,
	SHOWS_CURSOR,
	SHOWS_SPANS,
	SHOWS_TEXTS,
	SHOWS_SPAN,
	SHOWS_TEXT,
	SHOWS_START,
	SHOWS_END
} Shows;

typedef struct Column
{
	Shows		shows;
	size_t		variable;
	Oid			type;			/* of a text, or of the members of an array of texts */
	bool		is_wide;		/* whether a number has 64 bits */
} Column;

typedef struct Call
{
	Reading	   *reading;
	TypeCacheEntry *range;
	Column	   *columns;
	Datum	   *values;
	bool	   *nulls;
} Call;

static Datum
range_of(TypeCacheEntry *type, const uint32_t *span)
{
	RangeBound	lower = {.val = Int32GetDatum((int32) span[0]), .inclusive = true, .lower = true};
	RangeBound	upper = {.val = Int32GetDatum((int32) span[1])};

#if PG_VERSION_NUM >= 160000
	return RangeTypePGetDatum(make_range(type, &lower, &upper, false, NULL));
#else
	return RangeTypePGetDatum(make_range(type, &lower, &upper, false));
#endif
}

/* The spans of a row or their texts, one for each variable. */
static Datum
array_of(const Call *call, const Column *column, const uint32_t *row)
{
	Reading	   *reading = call->reading;
	Datum		members[MOST_VARIABLES];
	bool		absent[MOST_VARIABLES];
	int			count = (int) reading->variables,
				first = 1;
	bool		is_span = column->shows == SHOWS_SPANS;
	Oid			type = is_span ? INT4RANGEOID : column->type;

	if (count == 0)
		return PointerGetDatum(construct_empty_array(type));
	for (int k = 0; k < count; k++)
	{
		const uint32_t *span = row + 2 * k;

		absent[k] = span[0] == REMATCH_ABSENT;
		if (!absent[k])
			members[k] = is_span ? range_of(call->range, span)
				: piece_of(type, reading->document.at + span[0], span[1] - span[0], reading->names[k].bytes);
	}
	return PointerGetDatum(construct_md_array(members, absent, 1, &count, &first, type, -1, false, TYPALIGN_INT));
}

static Datum
cursor_of(Reading *reading, const uint32_t *row)
{
	char		text[REMATCH_MOST_CURSOR];
	size_t		length;
	rematch_text note = {0, ""};

	check(rematch_cursor(&reading->rows, row, 2 * reading->variables, text, sizeof text, &length), &note);
	return PointerGetDatum(cstring_to_text_with_len(text, (int) length));
}

/* What a column of a variable shows; whether the variable is there. */
static bool
of_variable(const Call *call, const Column *column, const uint32_t *row, Datum *value)
{
	const uint32_t *span = row + 2 * column->variable;
	Reading	   *reading = call->reading;

	if (span[0] == REMATCH_ABSENT)
		return false;
	if (column->shows == SHOWS_SPAN)
		*value = range_of(call->range, span);
	else if (column->shows == SHOWS_TEXT)
		*value = piece_of(column->type, reading->document.at + span[0], span[1] - span[0], reading->names[column->variable].bytes);
	else
	{
		uint32_t	place = span[column->shows == SHOWS_END];

		*value = column->is_wide ? Int64GetDatum(place) : Int32GetDatum((int32) place);
	}
	return true;
}

static HeapTuple
tuple_of(const Call *call, TupleDesc description, const uint32_t *row)
{
	for (int k = 0; k < description->natts; k++)
	{
		const Column *column = &call->columns[k];

		call->nulls[k] = false;
		switch (column->shows)
		{
			case SHOWS_NUMBER:
				call->values[k] = column->is_wide ? Int64GetDatum(call->reading->number) : Int32GetDatum((int32) call->reading->number);
				break;
			case SHOWS_CURSOR:
				call->values[k] = cursor_of(call->reading, row);
				break;
			case SHOWS_SPANS:
			case SHOWS_TEXTS:
				call->values[k] = array_of(call, column, row);
				break;
			default:
				call->nulls[k] = !of_variable(call, column, row, &call->values[k]);
		}
	}
	return heap_form_tuple(description, call->values, call->nulls);
}

/* ---- what columns are asked for ---- */

/* Whether a name is that of a variable with an ending. */
static bool
is_named(const char *name, const char *variable, const char *ending)
{
	size_t		length = strlen(variable);

	return strncmp(name, variable, length) == 0 && strcmp(name + length, ending) == 0;
}

/* Whether a column of this name and type shows something of a variable. */
static bool
shows_variable(Column *column, const char *name, Oid type, const char *variable)
{
	bool		is_number = type == INT4OID || type == INT8OID;

	if (is_named(name, variable, "") && (type == TEXTOID || type == BYTEAOID))
		column->shows = SHOWS_TEXT;
	else if (is_named(name, variable, "") && type == INT4RANGEOID)
		column->shows = SHOWS_SPAN;
	else if (is_named(name, variable, "_start") && is_number)
		column->shows = SHOWS_START;
	else if (is_named(name, variable, "_end") && is_number)
		column->shows = SHOWS_END;
	else
		return false;
	return true;
}

/* What a column shows, by its name and its type. A variable comes before what has its name otherwise. */
static Column
column_of(const Reading *reading, const char *name, Oid type)
{
	Column		column = {.type = type, .is_wide = type == INT8OID};

	for (column.variable = 0; column.variable < reading->variables; column.variable++)
		if (shows_variable(&column, name, type, reading->names[column.variable].bytes))
			return column;
	if (strcmp(name, "row_number") == 0 && (type == INT4OID || type == INT8OID))
		column.shows = SHOWS_NUMBER;
	else if (strcmp(name, "cursor") == 0 && type == TEXTOID)
		column.shows = SHOWS_CURSOR;
	else
		ereport(ERROR,
				(errcode(ERRCODE_DATATYPE_MISMATCH),
				 errmsg("rematch: no column \"%s\" of type %s", name, format_type_be(type)),
				 errhint("Of each variable x there are: x text, x bytea, x int4range, x_start integer, x_end integer; and row_number bigint, cursor text.")));
	return column;
}

/* The columns of the functions that return arrays: row_number, spans, texts. */
static Column
array_column(int place, Oid type)
{
	static const Shows shows[] = {SHOWS_NUMBER, SHOWS_SPANS, SHOWS_TEXTS};

	return (Column) {.shows = shows[place], .type = type == BYTEAARRAYOID ? BYTEAOID : TEXTOID, .is_wide = true};
}

static TupleDesc
description_of(FunctionCallInfo fcinfo)
{
	TupleDesc	description;

	if (get_call_result_type(fcinfo, NULL, &description) != TYPEFUNC_COMPOSITE)
		ereport(ERROR,
				(errcode(ERRCODE_FEATURE_NOT_SUPPORTED),
				 errmsg("rematch: no columns are asked for"),
				 errhint("Write the columns after the call, as in rematch_record(..) AS row (x text, x_start integer).")));
	return BlessTupleDesc(description);
}

/* Begins the call of a function that returns rows. */
static Call *
begin_call(FunctionCallInfo fcinfo, bool is_text, TupleDesc description)
{
	Call	   *call = palloc0(sizeof(Call));
	Bytes		after = {"start", 5};
	bool		is_of_arrays = description->natts == 3 && TupleDescAttr(description, 1)->atttypid == INT4RANGEARRAYOID;

	if (!PG_ARGISNULL(AFTER))
		after = bytes_of((struct varlena *) PG_GETARG_TEXT_PP(AFTER));
	call->reading = begin_reading(fcinfo, is_text, options_of(fcinfo, MAX_TABLE), after);
	if (!PG_ARGISNULL(MOST))
		call->reading->left = Max(PG_GETARG_INT64(MOST), 0);
	call->range = lookup_type_cache(INT4RANGEOID, TYPECACHE_RANGE_INFO);
	call->columns = palloc(description->natts * sizeof(Column));
	call->values = palloc(description->natts * sizeof(Datum));
	call->nulls = palloc(description->natts * sizeof(bool));
	for (int k = 0; k < description->natts; k++)
	{
		Form_pg_attribute column = TupleDescAttr(description, k);

		call->columns[k] = is_of_arrays ? array_column(k, column->atttypid)
			: column_of(call->reading, NameStr(column->attname), column->atttypid);
	}
	return call;
}

static Datum
rows_of(FunctionCallInfo fcinfo, bool is_text)
{
	FuncCallContext *context;
	Call	   *call;
	const uint32_t *row;

	if (SRF_IS_FIRSTCALL())
	{
		MemoryContext before;

		context = SRF_FIRSTCALL_INIT();
		before = MemoryContextSwitchTo(context->multi_call_memory_ctx);
		context->tuple_desc = description_of(fcinfo);
		if (!PG_ARGISNULL(QUERY) && !PG_ARGISNULL(DOCUMENT))
			context->user_fctx = begin_call(fcinfo, is_text, context->tuple_desc);
		MemoryContextSwitchTo(before);
	}
	context = SRF_PERCALL_SETUP();
	call = context->user_fctx;
	row = call == NULL ? NULL : next_row(call->reading);
	if (row == NULL)
		SRF_RETURN_DONE(context);
	SRF_RETURN_NEXT(context, HeapTupleGetDatum(tuple_of(call, context->tuple_desc, row)));
}

PG_FUNCTION_INFO_V1(rematch_in_text);
Datum
rematch_in_text(PG_FUNCTION_ARGS)
{
	return rows_of(fcinfo, true);
}

PG_FUNCTION_INFO_V1(rematch_in_bytes);
Datum
rematch_in_bytes(PG_FUNCTION_ARGS)
{
	return rows_of(fcinfo, false);
}

/* ---- the other functions ---- */

static bool
has_row(FunctionCallInfo fcinfo, bool is_text)
{
	MemoryContext own = AllocSetContextCreate(CurrentMemoryContext, "rematch", ALLOCSET_DEFAULT_SIZES);
	MemoryContext before = MemoryContextSwitchTo(own);
	bool		has = next_row(begin_reading(fcinfo, is_text, options_of(fcinfo, 2), (Bytes) {"start", 5})) != NULL;

	MemoryContextSwitchTo(before);
	MemoryContextDelete(own);
	return has;
}

PG_FUNCTION_INFO_V1(rematch_any_in_text);
Datum
rematch_any_in_text(PG_FUNCTION_ARGS)
{
	if (PG_ARGISNULL(QUERY) || PG_ARGISNULL(DOCUMENT))
		PG_RETURN_NULL();
	PG_RETURN_BOOL(has_row(fcinfo, true));
}

PG_FUNCTION_INFO_V1(rematch_any_in_bytes);
Datum
rematch_any_in_bytes(PG_FUNCTION_ARGS)
{
	if (PG_ARGISNULL(QUERY) || PG_ARGISNULL(DOCUMENT))
		PG_RETURN_NULL();
	PG_RETURN_BOOL(has_row(fcinfo, false));
}

/* The variables of a query, in the order of the arrays. */
PG_FUNCTION_INFO_V1(rematch_variables_of);
Datum
rematch_variables_of(PG_FUNCTION_ARGS)
{
	rematch_query query = REMATCH_NONE;
	char		names[MOST_VARIABLES][sizeof(rematch_text)];
	Datum		members[MOST_VARIABLES];
	size_t		count;

	find(utf8_of((struct varlena *) PG_GETARG_TEXT_PP(QUERY)), &query);
	rematch_variables(&query, &count);
	for (size_t k = 0; k < count; k++)
	{
		rematch_text name;

		rematch_variable(&query, k, &name);
		memcpy(names[k], name.bytes, name.length + 1);
	}
	rematch_close(&query);
	for (size_t k = 0; k < count; k++)
		members[k] = CStringGetTextDatum(names[k]);
	PG_RETURN_ARRAYTYPE_P(construct_array(members, (int) count, TEXTOID, -1, false, TYPALIGN_INT));
}

PG_FUNCTION_INFO_V1(rematch_version_of);
Datum
rematch_version_of(PG_FUNCTION_ARGS)
{
	PG_RETURN_TEXT_P(cstring_to_text(rematch_version()));
}
