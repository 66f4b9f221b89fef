"""What the version of the header does not have yet, or no longer: O21.

The tables are taken from Khronos' grammar file of SPIR-V 1.6, revision 1: its keys `version`, `lastVersion` and
`extensions`.
"""

from ..forms import ARRAY, BOOL, STRUCT, VECTOR
from ..order import opcodes_in

# Opcodes stand under a name that no kind of operands has.
OPCODE, CAPABILITY, DECORATION, BUILT_IN = None, "Capability", "Decoration", "BuiltIn"
EXECUTION_MODE, LOOP_CONTROL, IMAGE_OPERANDS = "ExecutionMode", "LoopControl", "ImageOperands"
IMPORT, COPIES, SELECT = 11, (63, 64), 169
NON_SEMANTIC, OF_NON_SEMANTIC = "NonSemantic.", "SPV_KHR_non_semantic_info"
HLSL = "SPV_GOOGLE_hlsl_functionality1"

# Table V: a kind, numbers, the minor version from which on they are there, and extensions by which they are there
# before.
FIRST = (
    (OPCODE, "321 330", 1, ""),
    (OPCODE, "331", 2, ""),
    (OPCODE, "332", 2, HLSL),
    (OPCODE, "400-403", 4, ""),
    (OPCODE, "5632 5633", 4, f"SPV_GOOGLE_decorate_string {HLSL}"),
    (CAPABILITY, "58-60", 1, ""),
    (CAPABILITY, "61-68", 3, ""),
    (CAPABILITY, "69 70", 5, ""),
    (CAPABILITY, "71", 6, ""),
    (CAPABILITY, "4433-4436", 3, "SPV_KHR_16bit_storage"),
    (CAPABILITY, "4437", 3, "SPV_KHR_device_group"),
    (CAPABILITY, "4448-4450", 5, "SPV_KHR_8bit_storage"),
    (CAPABILITY, "4464-4468", 4, "SPV_KHR_float_controls"),
    (CAPABILITY, "5304 5305", 5, "SPV_EXT_descriptor_indexing"),
    (CAPABILITY, "5345 5346", 5, "SPV_KHR_vulkan_memory_model"),
    (CAPABILITY, "6016-6019", 6, "SPV_KHR_integer_dot_product"),
    (EXECUTION_MODE, "33-36", 1, ""),
    (EXECUTION_MODE, "37-39", 2, ""),
    (EXECUTION_MODE, "4459-4463", 4, "SPV_KHR_float_controls"),
    (DECORATION, "45", 1, ""),
    (DECORATION, "46 47", 2, ""),
    (DECORATION, "27", 4, ""),
    (DECORATION, "4469 4470", 4, "SPV_KHR_no_integer_wrap_decoration"),
    (DECORATION, "5634 5635", 4, HLSL),
    (BUILT_IN, "4416-4420", 3, "SPV_KHR_shader_ballot"),
    (BUILT_IN, "4438", 3, "SPV_KHR_device_group"),
    (LOOP_CONTROL, "4 8", 1, ""),
    (LOOP_CONTROL, "16 32 64 128 256", 4, ""),
    (IMAGE_OPERANDS, "4096 8192", 4, ""),
    (IMAGE_OPERANDS, "16384", 6, ""),
    ("GroupOperation", "3", 3, ""),
    ("PackedVectorFormat", "0", 6, "SPV_KHR_integer_dot_product"),
)

# Table X: what no version has without one of these extensions.
EXTENSIONS_ALONE = (
    (CAPABILITY, "4423", "SPV_KHR_shader_ballot"),
    (CAPABILITY, "4431", "SPV_KHR_subgroup_vote"),
    (CAPABILITY, "4445", "SPV_KHR_shader_atomic_counter_ops"),
    (CAPABILITY, "4447", "SPV_KHR_post_depth_coverage"),
    (CAPABILITY, "5282", "SPV_NV_shader_image_footprint"),
    (CAPABILITY, "5284", "SPV_NV_fragment_shader_barycentric SPV_KHR_fragment_shader_barycentric"),
    (CAPABILITY, "5288 5350", "SPV_NV_compute_shader_derivatives"),
    (CAPABILITY, "5297", "SPV_NV_shader_subgroup_partitioned"),
    (CAPABILITY, "5390", "SPV_NV_bindless_texture"),
    (CAPABILITY, "5568-5570", "SPV_INTEL_subgroups"),
    (CAPABILITY, "5579", "SPV_INTEL_media_block_io"),
    (CAPABILITY, "5582 5583 5821", "SPV_INTEL_float_controls2"),
    (CAPABILITY, "5603 5604", "SPV_INTEL_function_pointers"),
    (CAPABILITY, "5606", "SPV_INTEL_inline_assembly"),
    (CAPABILITY, "5612 5613 5616", "SPV_EXT_shader_atomic_float_min_max"),
    (CAPABILITY, "5617 5619", "SPV_INTEL_vector_compute"),
    (CAPABILITY, "5629", "SPV_KHR_expect_assume"),
    (CAPABILITY, "5696-5698", "SPV_INTEL_device_side_avc_motion_estimation"),
    (CAPABILITY, "5817", "SPV_INTEL_variable_length_array"),
    (CAPABILITY, "5824", "SPV_INTEL_fpga_memory_attributes"),
    (CAPABILITY, "5837", "SPV_INTEL_fp_fast_math_mode"),
    (CAPABILITY, "5844", "SPV_INTEL_arbitrary_precision_integers"),
    (CAPABILITY, "5845", "SPV_INTEL_arbitrary_precision_floating_point"),
    (CAPABILITY, "5886", "SPV_INTEL_unstructured_loop_controls"),
    (CAPABILITY, "5888", "SPV_INTEL_fpga_loop_controls"),
    (CAPABILITY, "5892 5897", "SPV_INTEL_kernel_attributes"),
    (CAPABILITY, "5898", "SPV_INTEL_fpga_memory_accesses"),
    (CAPABILITY, "5904", "SPV_INTEL_fpga_cluster_attributes"),
    (CAPABILITY, "5906", "SPV_INTEL_loop_fuse"),
    (CAPABILITY, "5908", "SPV_INTEL_fpga_dsp_control"),
    (CAPABILITY, "5910", "SPV_INTEL_memory_access_aliasing"),
    (CAPABILITY, "5916", "SPV_INTEL_fpga_invocation_pipelining_attributes"),
    (CAPABILITY, "5920", "SPV_INTEL_fpga_buffer_location"),
    (CAPABILITY, "5922", "SPV_INTEL_arbitrary_precision_fixed_point"),
    (CAPABILITY, "5935", "SPV_INTEL_usm_storage_classes"),
    (CAPABILITY, "5939", "SPV_INTEL_runtime_aligned"),
    (CAPABILITY, "5943", "SPV_INTEL_io_pipes"),
    (CAPABILITY, "5945", "SPV_INTEL_blocking_pipes"),
    (CAPABILITY, "5948", "SPV_INTEL_fpga_reg"),
    (CAPABILITY, "6020", "SPV_KHR_ray_cull_mask"),
    (CAPABILITY, "6025", "SPV_KHR_bit_instructions"),
    (CAPABILITY, "6026", "SPV_KHR_subgroup_rotate"),
    (CAPABILITY, "6033 6034", "SPV_EXT_shader_atomic_float_add"),
    (CAPABILITY, "6089", "SPV_INTEL_long_constant_composite"),
    (CAPABILITY, "6094", "SPV_INTEL_optnone"),
    (CAPABILITY, "6095", "SPV_EXT_shader_atomic_float16_add"),
    (CAPABILITY, "6114", "SPV_INTEL_debug_module"),
    (CAPABILITY, "6141", "SPV_INTEL_split_barrier"),
    (CAPABILITY, "6400", "SPV_KHR_uniform_group_instructions"),
    ("LinkageType", "2", "SPV_KHR_linkonce_odr"),
    (DECORATION, "4999", "SPV_AMD_shader_explicit_vertex_parameter"),
    (DECORATION, "5636", "SPV_GOOGLE_user_type"),
    (BUILT_IN, "4992-4998", "SPV_AMD_shader_explicit_vertex_parameter"),
)
NEVER = 7
# Of each kind and number the minor version from which on it is there, and the extensions.
ROWS = {
    (kind, number): (minor, frozenset(names.split()))
    for kind, numbers, minor, names in (*FIRST, *((kind, codes, NEVER, it) for kind, codes, it in EXTENSIONS_ALONE))
    for number in opcodes_in(numbers)
}
# The last minor version that has an opcode.
LAST = {161: 5, 231: 3}


def named(inst):
    """What an instruction names: its opcode, and each value or set bit among its operands, with its kind."""
    yield OPCODE, inst.opcode
    for it in inst.operands:
        if it[0] == "Value":
            yield it[1:3]
        elif it[0] == "Mask":
            yield from ((it[1], 1 << bit) for bit in range(32) if it[2] >> bit & 1)


def is_missing(module, key):
    """Whether a pair of a kind and a number is neither in the version nor in an extension that the module names."""
    minor, names = ROWS.get(key, (0, frozenset()))
    return minor > module.minor and not names & module.extensions


def is_late_use(module, inst):
    """Whether an instruction is used as later versions alone allow it."""
    if module.minor < 4 and inst.opcode in COPIES:
        return sum(it[0] == "Mask" for it in inst.operands) > 1
    if module.minor < 4 and inst.opcode == SELECT:
        form, chooses = module.types.form(inst.type), module.types.type_of(inst.operands[2][1])
        return form in (ARRAY, STRUCT) or form == VECTOR and module.types.form(chooses) == BOOL
    is_set = inst.opcode == IMPORT and inst.operands[1][1].startswith(NON_SEMANTIC)
    return module.minor < 6 and is_set and OF_NON_SEMANTIC not in module.extensions


def O21(module):
    """The version of the header does not have it."""
    for at, inst in enumerate(module.insts):
        is_gone = module.minor > LAST.get(inst.opcode, NEVER)
        if is_gone or is_late_use(module, inst) or any(is_missing(module, it) for it in named(inst)):
            yield at
