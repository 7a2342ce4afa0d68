"""Objects of the library whose fields a program may set, and whose methods look at them by code that has no hooks.

Which of its fields a method looks at is not known. So a field that is set beside a call of a method, in no order with
it, is named as not looked into.
"""

from __future__ import annotations

from typing import NamedTuple


class Settings(NamedTuple):
    """A class with its fields, and its methods that may look at them.

    Methods that containers have, too, as `get`, are left out: a call of one has a hook already, which knows the class.
    """

    path: str
    fields: str
    methods: str

    @property
    def module(self) -> str:
        """The module that a program imports for it."""
        return self.path.rpartition(".")[0].removesuffix(".encoder").removesuffix(".decoder")


_SETTINGS = (
    Settings(
        "argparse.ArgumentParser",
        "add_help allow_abbrev argument_default conflict_handler epilog exit_on_error formatter_class "
        "fromfile_prefix_chars prefix_chars prog usage",
        "add_argument add_argument_group add_mutually_exclusive_group add_subparsers convert_arg_line_to_args "
        "error exit format_help format_usage get_default parse_args parse_intermixed_args parse_known_args "
        "parse_known_intermixed_args print_help print_usage register set_defaults",
    ),
    Settings(
        "calendar.TextCalendar",
        "firstweekday",
        "formatday formatmonth formatmonthname formatweek formatweekday formatweekheader formatyear "
        "getfirstweekday itermonthdates itermonthdays itermonthdays2 itermonthdays3 itermonthdays4 "
        "iterweekdays monthdatescalendar monthdays2calendar monthdayscalendar prmonth prweek pryear "
        "setfirstweekday yeardatescalendar yeardays2calendar yeardayscalendar",
    ),
    Settings(
        "cmd.Cmd",
        "cmdqueue completekey completion_matches doc_header doc_leader identchars intro lastcmd misc_header "
        "nohelp old_completer prompt ruler stdin stdout undoc_header use_rawinput",
        "cmdloop columnize complete complete_help completedefault completenames default do_help emptyline "
        "get_names onecmd parseline postcmd postloop precmd preloop print_topics",
    ),
    Settings(
        "configparser.RawConfigParser",
        "default_section",
        "add_section defaults getboolean getfloat getint has_option has_section options optionxform read_dict "
        "read_file read_string readfp remove_option remove_section sections set",
    ),
    Settings(
        "csv.Sniffer",
        "preferred",
        "has_header sniff",
    ),
    Settings(
        "decimal.Context",
        "Emax Emin capitals clamp prec rounding traps flags",
        "Etiny Etop abs add subtract canonical clear_flags clear_traps compare compare_signal compare_total "
        "compare_total_mag copy_abs copy_decimal copy_negate copy_sign create_decimal "
        "create_decimal_from_float divide divide_int divmod exp fma ln log10 logb logical_and logical_invert "
        "logical_or logical_xor max max_mag min min_mag minus multiply next_minus next_plus next_toward "
        "normalize number_class plus power quantize radix remainder remainder_near same_quantum scaleb shift "
        "sqrt to_eng_string to_integral to_integral_exact to_integral_value to_sci_string",
    ),
    Settings(
        "difflib.Differ",
        "charjunk linejunk",
        "compare",
    ),
    Settings(
        "email.message.Message",
        "defects epilogue policy preamble",
        "add_header as_bytes as_string attach del_param get_all get_boundary get_charset get_charsets "
        "get_content_charset get_content_disposition get_content_maintype get_content_subtype "
        "get_content_type get_default_type get_filename get_param get_params get_payload get_unixfrom "
        "is_multipart raw_items replace_header set_boundary set_charset set_default_type set_param "
        "set_payload set_raw set_type set_unixfrom walk",
    ),
    Settings(
        "email.generator.Generator",
        "maxheaderlen policy",
        "clone flatten",
    ),
    Settings(
        "ftplib.FTP",
        "af debugging encoding file host lastresp maxline passiveserver port source_address timeout "
        "trust_server_pasv_ipv4_address welcome",
        "abort acct connect cwd debug delete dir getline getmultiline getresp getwelcome login makepasv "
        "makeport mkd mlsd nlst ntransfercmd putcmd putline pwd quit rename retrbinary retrlines rmd sanitize "
        "sendcmd sendeprt sendport set_debuglevel set_pasv size storbinary storlines transfercmd voidcmd "
        "voidresp",
    ),
    Settings(
        "html.parser.HTMLParser",
        "cdata_elem convert_charrefs interesting lasttag lineno offset rawdata",
        "check_for_whole_start_tag clear_cdata_mode feed get_starttag_text getpos goahead handle_charref "
        "handle_comment handle_data handle_decl handle_endtag handle_entityref handle_pi handle_startendtag "
        "handle_starttag parse_bogus_comment parse_comment parse_declaration parse_endtag "
        "parse_html_declaration parse_marked_section parse_pi parse_starttag set_cdata_mode unknown_decl "
        "updatepos",
    ),
    Settings(
        "http.client.HTTPConnection",
        "auto_open blocksize debuglevel default_port host port source_address timeout",
        "connect endheaders getresponse putheader putrequest request set_debuglevel set_tunnel",
    ),
    Settings(
        "imaplib.IMAP4",
        "Literal Untagged_status capabilities continuation_response debug file host is_readonly literal mo "
        "password port state tagged_commands tagnum tagpre tagre untagged_responses user utf8_enabled welcome",
        "authenticate capability check create delete deleteacl enable expunge fetch getacl getannotation "
        "getquota getquotaroot list login login_cram_md5 logout lsub myrights namespace noop open partial "
        "print_log proxyauth recent rename response search select setacl setannotation setquota shutdown "
        "socket starttls status store subscribe thread uid unselect unsubscribe xatom",
    ),
    Settings(
        "json.decoder.JSONDecoder",
        "memo object_hook object_pairs_hook parse_array parse_constant parse_float parse_int parse_object "
        "parse_string scan_once strict",
        "decode raw_decode",
    ),
    Settings(
        "json.encoder.JSONEncoder",
        "allow_nan check_circular ensure_ascii indent item_separator key_separator skipkeys sort_keys",
        "default encode iterencode",
    ),
    Settings(
        "logging.Formatter",
        "converter datefmt default_msec_format default_time_format",
        "formatException formatMessage formatStack formatTime usesTime",
    ),
    Settings(
        "logging.Handler",
        "filters formatter level name terminator stream",
        "acquire addFilter createLock emit filter get_name handle handleError release removeFilter "
        "setFormatter setLevel set_name",
    ),
    Settings(
        "mimetypes.MimeTypes",
        "encodings_map suffix_map types_map types_map_inv",
        "add_type guess_all_extensions guess_extension guess_type read_windows_registry readfp",
    ),
    Settings(
        "optparse.OptionParser",
        "allow_interspersed_args conflict_handler defaults epilog formatter largs option_class option_groups "
        "option_list process_default_values prog rargs standard_option_list usage values version",
        "add_option add_option_group add_options check_values destroy disable_interspersed_args "
        "enable_interspersed_args error exit expand_prog_name format_description format_epilog format_help "
        "format_option_help get_default_values get_description get_option get_option_group get_prog_name "
        "get_usage get_version has_option parse_args print_help print_usage print_version remove_option "
        "set_conflict_handler set_default set_defaults set_description set_process_default_values set_usage",
    ),
    Settings(
        "reprlib.Repr",
        "fillvalue maxarray maxdeque maxdict maxfrozenset maxlevel maxlist maxlong maxother maxset maxstring "
        "maxtuple",
        "repr repr1 repr_array repr_deque repr_dict repr_frozenset repr_instance repr_int repr_list repr_set "
        "repr_str repr_tuple",
    ),
    Settings(
        "sched.scheduler",
        "delayfunc timefunc",
        "cancel empty enter enterabs run",
    ),
    Settings(
        "shlex.shlex",
        "commenters debug eof escape escapedquotes filestack infile instream lineno posix pushback quotes "
        "source state token whitespace whitespace_split wordchars",
        "error_leader get_token pop_source push_source push_token read_token sourcehook",
    ),
    Settings(
        "smtplib.SMTP",
        "command_encoding debuglevel default_port does_esmtp ehlo_msg ehlo_resp esmtp_features file helo_resp "
        "local_hostname password source_address timeout user",
        "auth auth_cram_md5 auth_login auth_plain connect data docmd ehlo ehlo_or_helo_if_needed expn "
        "getreply has_extn helo help login mail noop putcmd quit rcpt rset send_message sendmail "
        "set_debuglevel starttls verify vrfy",
    ),
    Settings(
        "socketserver.TCPServer",
        "RequestHandlerClass address_family allow_reuse_address allow_reuse_port request_queue_size "
        "server_address socket socket_type timeout",
        "close_request fileno finish_request get_request handle_error handle_request handle_timeout "
        "process_request serve_forever server_activate server_bind server_close service_actions shutdown "
        "shutdown_request verify_request",
    ),
    Settings(
        "sqlite3.Connection",
        "isolation_level row_factory text_factory",
        "backup blobopen commit create_aggregate create_collation create_function create_window_function "
        "cursor deserialize execute executemany executescript getlimit interrupt iterdump rollback serialize "
        "set_authorizer set_progress_handler set_trace_callback setlimit",
    ),
    Settings(
        "sqlite3.Cursor",
        "arraysize row_factory",
        "execute executemany executescript fetchall fetchmany fetchone setinputsizes setoutputsize",
    ),
    Settings(
        "ssl.SSLContext",
        "check_hostname hostname_checks_common_name keylog_filename maximum_version minimum_version "
        "num_tickets options post_handshake_auth sni_callback verify_flags verify_mode",
        "cert_store_stats get_ca_certs get_ciphers load_cert_chain load_default_certs load_dh_params "
        "load_verify_locations session_stats set_alpn_protocols set_ciphers set_default_verify_paths "
        "set_ecdh_curve set_npn_protocols set_servername_callback wrap_bio wrap_socket",
    ),
    Settings(
        "string.Template",
        "delimiter template",
        "get_identifiers is_valid safe_substitute substitute",
    ),
    Settings(
        "tarfile.TarFile",
        "copybufsize debug dereference encoding errorlevel errors extraction_filter fileobj firstmember "
        "format ignore_zeros inodes members mode name offset pax_headers tarinfo",
        "addfile chmod chown extract extractall extractfile getmember getmembers getnames gettarinfo list "
        "makedev makedir makefifo makefile makelink makeunknown next utime",
    ),
    Settings(
        "textwrap.TextWrapper",
        "break_long_words break_on_hyphens drop_whitespace expand_tabs fix_sentence_endings initial_indent "
        "max_lines placeholder replace_whitespace subsequent_indent tabsize unicode_whitespace_trans width",
        "fill wrap",
    ),
    Settings(
        "urllib.request.Request",
        "data fragment full_url headers host method origin_req_host selector type unredirected_hdrs "
        "unverifiable",
        "add_header add_unredirected_header get_full_url get_header get_method has_header has_proxy "
        "header_items remove_header set_proxy",
    ),
    Settings(
        "urllib.request.OpenerDirector",
        "addheaders handle_error handle_open handlers process_request process_response",
        "add_handler error open",
    ),
    Settings(
        "xml.etree.ElementTree.Element",
        "attrib tag tail text",
        "findall findtext iter iterfind itertext makeelement set",
    ),
    Settings(
        "zipfile.ZipFile",
        "NameToInfo comment compression compresslevel debug filelist filename metadata_encoding mode pwd "
        "start_dir",
        "extract extractall getinfo infolist mkdir namelist open printdir setpassword testzip writestr",
    ),
    Settings(
        "zipfile.ZipInfo",
        "comment compress_size compress_type create_system create_version date_time external_attr extra "
        "extract_version file_size filename flag_bits header_offset internal_attr orig_filename reserved "
        "volume",
        "FileHeader is_dir",
    ),
)

MODULES = frozenset(row.module for row in _SETTINGS)
"""Modules with such classes. Only if a program imports one, its calls and assignments are looked at."""
SURE = {"decimal.Context": ("prec", "rounding"), "textwrap.TextWrapper": ("width",)}
"""Fields that each of the methods looks at."""


def _by_name(names: str) -> dict[str, frozenset[str]]:
    """The modules with a class that has a field, or a method, of each name."""
    found: dict[str, set[str]] = {}
    for row in _SETTINGS:
        for name in getattr(row, names).split():
            found.setdefault(name, set()).add(row.module)
    return {name: frozenset(modules) for name, modules in found.items()}


MODULES_OF_FIELDS, MODULES_OF_METHODS = _by_name("fields"), _by_name("methods")
FIELDS_OF_CLASSES = {row.path: frozenset(row.fields.split()) for row in _SETTINGS}
METHODS_OF_CLASSES = {row.path: frozenset(row.methods.split()) for row in _SETTINGS}
IMPORT_OF = "import of "
"""So begins what is kept of a module that is imported."""
